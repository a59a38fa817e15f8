"""The wrapper of an operator as an AXI-Stream, and its test bench, in VHDL-93 and Verilog-2001."""
from collections.abc import Sequence
from dataclasses import dataclass

from .inner import VERILOG_WORDS, words_for, words_of
from .report import Port, Report
from .wrap_vhdl import FUNCTIONS

SIDES = """    aclk : in std_logic;
    aresetn : in std_logic;
    s_axis_tvalid : in std_logic;
    s_axis_tready : out std_logic;
    s_axis_tdata : in std_logic_vector({in_high} downto 0);
    s_axis_tlast : in std_logic;
    m_axis_tvalid : out std_logic;
    m_axis_tready : in std_logic;
    m_axis_tdata : out std_logic_vector({out_high} downto 0);
    m_axis_tlast : out std_logic"""

VHDL = """{head}
library ieee;
use ieee.std_logic_1164.all;

entity {name}_stream is
  port (
{sides}
  );
end entity;

architecture rtl of {name}_stream is
  -- Whether the circuit takes an input in this cycle, or moves what it has.
  signal moves : std_logic;
  signal enable : std_logic_vector(0 downto 0);
{signals}
begin
  circuit : entity work.{name} port map (clk => aclk, ce => enable, {actuals});
  enable(0) <= moves;
{flags}{outputs}
end architecture;
"""

VHDL_REGISTERS = """  process (aclk)
  begin
    if rising_edge(aclk) then
      if aresetn = '0' then
        valid <= (others => '0');
      elsif moves = '1' then
        valid(1) <= s_axis_tvalid;
        last(1) <= s_axis_tlast;
{moved}      end if;
    end if;
  end process;
"""
VHDL_MOVED = """        valid(2 to {latency}) <= valid(1 to {before});
        last(2 to {latency}) <= last(1 to {before});
"""

VERILOG = """{head}
module {name}_stream (
  input wire aclk,
  input wire aresetn,
  input wire s_axis_tvalid,
  output wire s_axis_tready,
  input wire [{in_high}:0] s_axis_tdata,
  input wire s_axis_tlast,
  output wire m_axis_tvalid,
  input wire m_axis_tready,
  output wire [{out_high}:0] m_axis_tdata,
  output wire m_axis_tlast
);
  // Whether the circuit takes an input in this cycle, or moves what it has.
  wire moves;
{signals}
  \\{name} circuit (.clk(aclk), .ce(moves), {actuals});
{flags}{outputs}
endmodule
"""

VERILOG_REGISTERS = """  always @(posedge aclk)
    if (!aresetn) valid <= {latency}'d0;
    else if (moves) begin
      valid <= {valid};
      last <= {last};
    end
"""

# When the circuit moves, and what each side says: of a filter, of which only inputs that are there may be taken; of others; and of
# a circuit without a latency. `{last}` is the valid bit of the outputs.
FLAGS = {
    "filter": {
        "moves": "aresetn and s_axis_tvalid and (m_axis_tready or not {valid})",
        "s_axis_tready": "aresetn and (m_axis_tready or not {valid})",
        "m_axis_tvalid": "aresetn and s_axis_tvalid and {valid}",
        "m_axis_tlast": "{last}",
    },
    "other": {
        "moves": "aresetn and (m_axis_tready or not {valid})",
        "s_axis_tready": "aresetn and (m_axis_tready or not {valid})",
        "m_axis_tvalid": "aresetn and {valid}",
        "m_axis_tlast": "{last}",
    },
    "plain": {
        "moves": "aresetn and s_axis_tvalid and m_axis_tready",
        "s_axis_tready": "aresetn and m_axis_tready",
        "m_axis_tvalid": "aresetn and s_axis_tvalid",
        "m_axis_tlast": "s_axis_tlast",
    },
}

VHDL_BENCH = """-- A test bench of {name}_stream for the rows of {name}.vec, of which both sides stall at random: it ends with a failure where an output
-- is not that of its row, where one that was not taken changes, or where none comes any more.
--     ghdl -a --std=93 {name}.vhd {name}_stream.vhd {name}_stream_bench.vhd
--     ghdl -e --std=93 {name}_stream_bench
--     ghdl -r --std=93 {name}_stream_bench --ieee-asserts=disable-at-0
-- Written by tools/wrap; VHDL-93 and VHDL-2008.
library ieee;
use ieee.std_logic_1164.all;
use ieee.numeric_std.all;
use std.textio.all;

entity {name}_stream_bench is
  generic (
    rows_file : string := "{name}.vec";
    seed : natural := 1
  );
end entity;

architecture test of {name}_stream_bench is
  constant half : time := {half} ps;
  signal aclk, aresetn : std_logic := '0';
  signal s_axis_tvalid, s_axis_tlast, m_axis_tready : std_logic := '0';
  signal s_axis_tready, m_axis_tvalid, m_axis_tlast : std_logic;
  signal s_axis_tdata : std_logic_vector({in_high} downto 0) := (others => '0');
  signal m_axis_tdata : std_logic_vector({out_high} downto 0);

{functions}begin
  dut : entity work.{name}_stream port map (aclk => aclk, aresetn => aresetn,
    s_axis_tvalid => s_axis_tvalid, s_axis_tready => s_axis_tready, s_axis_tdata => s_axis_tdata, s_axis_tlast => s_axis_tlast,
    m_axis_tvalid => m_axis_tvalid, m_axis_tready => m_axis_tready, m_axis_tdata => m_axis_tdata, m_axis_tlast => m_axis_tlast);

  process
    file sent_rows : text open read_mode is rows_file;
    file wanted_rows : text open read_mode is rows_file;
    variable row : line;
{variables}
    variable drawn : natural := seed mod 65537;
    variable sent, taken, faults, idle : natural := 0;
    variable is_pending, is_held, chosen : boolean := false;
    variable held : std_logic_vector({out_high} + 1 downto 0);

    -- True in about half of the calls.
    procedure choose is
    begin
      drawn := (drawn * 75 + 74) mod 65537;
      chosen := (drawn / 64) mod 2 = 0;
    end procedure;

    procedure edge is
    begin
      aclk <= '1';
      wait for half;
      aclk <= '0';
    end procedure;

    -- The last of five words of a stream.
    function is_last(number : natural) return std_logic is
    begin
      if number mod 5 = 4 then
        return '1';
      end if;
      return '0';
    end function;

    procedure read_row is
    begin
{reads}
    end procedure;

    -- Counts an output that is not the row's.
    procedure compare(name : string; found, wanted : std_logic_vector) is
    begin
      if found /= wanted then
        faults := faults + 1;
        report "output " & integer'image(taken) & ": " & name & " is " & hex(found) & " in place of " & hex(wanted) severity error;
      end if;
    end procedure;
  begin
    wait for half;
    edge;
    wait for half;
    edge;
    aresetn <= '1';
    for skipped in 1 to {latency} loop
      assert not endfile(wanted_rows) report "no rows to compare" severity failure;
      readline(wanted_rows, row);
    end loop;
    assert not endfile(wanted_rows) report "no rows to compare" severity failure;
    while not endfile(wanted_rows) loop
      choose;
      if chosen and not is_pending and not endfile(sent_rows) then
        readline(sent_rows, row);
        read_row;
{sets}
        s_axis_tlast <= is_last(sent);
        s_axis_tvalid <= '1';
        is_pending := true;
      end if;
      choose;
      m_axis_tready <= '0';
      if chosen then
        m_axis_tready <= '1';
      end if;
      wait for half;
      if is_held then
        assert m_axis_tvalid = '1' and (m_axis_tlast & m_axis_tdata) = held report "an output that was not taken has changed" severity failure;
      end if;
      is_held := m_axis_tvalid = '1' and m_axis_tready = '0';
      held := m_axis_tlast & m_axis_tdata;
      idle := idle + 1;
      assert idle < 1000 report "no output comes any more" severity failure;
      if m_axis_tvalid = '1' and m_axis_tready = '1' then
        readline(wanted_rows, row);
        read_row;
{compares}
        compare("tlast", (0 => m_axis_tlast), (0 => is_last(taken)));
        taken := taken + 1;
        idle := 0;
      end if;
      if is_pending and s_axis_tready = '1' then
        is_pending := false;
        sent := sent + 1;
        edge;
        s_axis_tvalid <= '0';
        s_axis_tdata <= not s_axis_tdata;
      else
        edge;
      end if;
    end loop;
    assert faults = 0 report integer'image(faults) & " outputs differ" severity failure;
    report "{name}: all " & integer'image(taken) & " outputs of the stream agree";
    wait;
  end process;
end architecture;
"""

VERILOG_BENCH = """// A test bench of {name}_stream for the rows of {name}.vec, of which both sides stall at random: it ends with a failure where an output
// is not that of its row, where one that was not taken changes, or where none comes any more.
//     iverilog -g2001 -o {name}_stream_bench {name}.v {name}_stream.v {name}_stream_bench.v && vvp {name}_stream_bench
// Written by tools/wrap.
module {name}_stream_bench;
  parameter ROWS = "{name}.vec";
  parameter HALF = {half};
  reg aclk = 1'b0, aresetn = 1'b0;
  reg s_axis_tvalid = 1'b0, s_axis_tlast = 1'b0, m_axis_tready = 1'b0;
  wire s_axis_tready, m_axis_tvalid, m_axis_tlast;
  reg [{in_high}:0] s_axis_tdata = 0;
  wire [{out_high}:0] m_axis_tdata;
{signals}
  reg [{out_high} + 1:0] held;
  reg is_held = 1'b0, takes;
  integer sent_rows, wanted_rows, got, left, seed = 1, sent = 0, taken = 0, faults = 0, idle = 0;

  {name}_stream dut (.aclk(aclk), .aresetn(aresetn),
    .s_axis_tvalid(s_axis_tvalid), .s_axis_tready(s_axis_tready), .s_axis_tdata(s_axis_tdata), .s_axis_tlast(s_axis_tlast),
    .m_axis_tvalid(m_axis_tvalid), .m_axis_tready(m_axis_tready), .m_axis_tdata(m_axis_tdata), .m_axis_tlast(m_axis_tlast));

  task edge_of_aclk;
    begin
      aclk = 1'b1;
      #HALF aclk = 1'b0;
    end
  endtask

  initial begin
    sent_rows = $fopen(ROWS, "r");
    wanted_rows = $fopen(ROWS, "r");
    if (sent_rows == 0 || wanted_rows == 0) $fatal(1, "cannot open %0s", ROWS);
    left = 0;
    while ($feof(sent_rows) == 0) begin
      got = $fscanf(sent_rows, "{format}\\n", {words});
      if (got != {count}) $fatal(1, "row %0d has not {count} words", left);
      left = left + 1;
    end
    left = left - {latency};
    if (left <= 0) $fatal(1, "no rows to compare");
    $fclose(sent_rows);
    sent_rows = $fopen(ROWS, "r");
    for (got = 0; got < {latency}; got = got + 1) idle = $fscanf(wanted_rows, "{format}\\n", {words});
    idle = 0;
    #HALF edge_of_aclk;
    #HALF edge_of_aclk;
    aresetn = 1'b1;
    while (taken < left) begin
      if ($random(seed) & 64 && !s_axis_tvalid && $feof(sent_rows) == 0) begin
        got = $fscanf(sent_rows, "{format}\\n", {words});
        s_axis_tdata = ~{in_size}'d0;
{sets}
        s_axis_tlast = sent % 5 == 4;
        s_axis_tvalid = 1'b1;
      end
      m_axis_tready = ($random(seed) & 64) != 0;
      #HALF;
      if (is_held && (!m_axis_tvalid || {{m_axis_tlast, m_axis_tdata}} !== held)) $fatal(1, "an output that was not taken has changed");
      is_held = m_axis_tvalid && !m_axis_tready;
      held = {{m_axis_tlast, m_axis_tdata}};
      idle = idle + 1;
      if (idle > 1000) $fatal(1, "no output comes any more");
      takes = s_axis_tvalid && s_axis_tready;
      if (m_axis_tvalid && m_axis_tready) begin
        got = $fscanf(wanted_rows, "{format}\\n", {words});
{compares}
        if (m_axis_tlast !== (taken % 5 == 4)) begin
          faults = faults + 1;
          $display("output %0d: tlast is %b", taken, m_axis_tlast);
        end
        taken = taken + 1;
        idle = 0;
      end
      edge_of_aclk;
      if (takes) begin
        sent = sent + 1;
        s_axis_tvalid = 1'b0;
        s_axis_tdata = ~s_axis_tdata;
      end
    end
    if (faults != 0) $fatal(1, "%0d outputs differ", faults);
    $display("{name}: all %0d outputs of the stream agree", taken);
    $finish;
  end
endmodule
"""


@dataclass(frozen=True)
class Field:
    """A port in a word of a stream: its lowest bit there, and how many bits it takes, a multiple of eight."""

    port: Port
    low: int
    bits: int

    @property
    def high(self) -> int:
        return self.low + self.port.width - 1

    @property
    def end(self) -> int:
        """The highest of the bits that it takes."""
        return self.low + self.bits - 1


def fields_of(ports: Sequence[Port]) -> list[Field]:
    """The ports in a word of a stream, the first in the lowest bits, each from a whole byte on."""
    found: list[Field] = []
    for port in ports:
        found.append(Field(port, found[-1].end + 1 if found else 0, -(-port.width // 8) * 8))
    return found


def sort_of(facts: Report, is_filter: bool) -> str:
    """Which of the flags an operator has."""
    return "plain" if facts.latency == 0 else "filter" if is_filter else "other"


def vhdl_flags(facts: Report, is_filter: bool) -> str:
    latency = facts.latency
    flags = FLAGS[sort_of(facts, is_filter)]
    lines = [f"  {name} <= {said.format(valid=f'valid({latency})', last=f'last({latency})')};\n" for name, said in flags.items()]
    moved = VHDL_MOVED.format(latency=latency, before=latency - 1) if latency > 1 else ""
    return "".join(lines) + (VHDL_REGISTERS.format(moved=moved) if latency else "")


def vhdl_text(facts: Report, is_filter: bool, head: str) -> str:
    """The wrapper in VHDL."""
    ins, outs = fields_of(facts.inputs), fields_of(facts.outputs)
    words = words_for([port.name for port in facts.outputs], set())
    signals = [f"  signal {words[field.port.name]} : std_logic_vector({field.port.width - 1} downto 0);" for field in outs]
    signals += [f"  signal valid, last : std_logic_vector(1 to {facts.latency}) := (others => '0');"] if facts.latency else []
    actuals = [f"{field.port.name} => s_axis_tdata({field.high} downto {field.low})" for field in ins]
    actuals += [f"{field.port.name} => {words[field.port.name]}" for field in outs]
    outputs = []
    for field in outs:
        word = words[field.port.name]
        outputs.append(f"  m_axis_tdata({field.high} downto {field.low}) <= {word};")
        if field.end > field.high:
            filled = f"{word}({field.port.width - 1})" if field.port.is_signed else "'0'"
            outputs.append(f"  m_axis_tdata({field.end} downto {field.high + 1}) <= (others => {filled});")
    return VHDL.format(
        head=head,
        name=facts.name,
        sides=SIDES.format(in_high=ins[-1].end, out_high=outs[-1].end),
        signals="\n".join(signals),
        actuals=", ".join(actuals),
        flags=vhdl_flags(facts, is_filter),
        outputs="\n".join(outputs),
    )


def verilog_flags(facts: Report, is_filter: bool) -> str:
    top = facts.latency - 1
    lines = []
    for name, said in FLAGS[sort_of(facts, is_filter)].items():
        written = said.format(valid=f"valid[{top}]", last=f"last[{top}]").replace(" and ", " & ").replace(" or ", " | ").replace("not ", "~")
        lines.append(f"  assign {name} = {written};\n")
    if not facts.latency:
        return "".join(lines)
    valid, last = (f"{{{name}[{top - 1}:0], s_axis_t{name}}}" if top else f"s_axis_t{name}" for name in ("valid", "last"))
    return "".join(lines) + VERILOG_REGISTERS.format(latency=facts.latency, valid=valid, last=last)


def verilog_text(facts: Report, is_filter: bool, head: str) -> str:
    """The wrapper in Verilog."""
    ins, outs = fields_of(facts.inputs), fields_of(facts.outputs)
    words = words_for([port.name for port in facts.outputs], set())
    signals = [f"  wire [{field.port.width - 1}:0] {words[field.port.name]};" for field in outs]
    signals += [f"  reg [{facts.latency - 1}:0] valid = 0, last = 0;"] if facts.latency else []
    actuals = [f".\\{field.port.name} (s_axis_tdata[{field.high}:{field.low}])" for field in ins]
    actuals += [f".\\{field.port.name} ({words[field.port.name]})" for field in outs]
    outputs = []
    for field in outs:
        word, more = words[field.port.name], field.end - field.high
        filled = f"{word}[{field.port.width - 1}]" if field.port.is_signed else "1'b0"
        padded = f"{{{{{more}{{{filled}}}}}, {word}}}" if more else word
        outputs.append(f"  assign m_axis_tdata[{field.end}:{field.low}] = {padded};")
    unused = [f"s_axis_tdata[{field.end}:{field.high + 1}]" for field in ins if field.end > field.high]
    outputs += [f"  wire unused = &{{1'b0, {', '.join(unused)}}};"] if unused else []
    return VERILOG.format(
        head=head,
        name=facts.name,
        in_high=ins[-1].end,
        out_high=outs[-1].end,
        signals="\n".join(signals),
        actuals=", ".join(actuals),
        flags=verilog_flags(facts, is_filter),
        outputs="\n".join(outputs),
    )


def vhdl_bench(facts: Report) -> str:
    """The test bench in VHDL."""
    ins, outs = fields_of(facts.inputs), fields_of(facts.outputs)
    words = words_for([port.name for port in facts.ports], words_of(VHDL_BENCH + FUNCTIONS, "--"))
    sets = [f"        s_axis_tdata({field.high} downto {field.low}) <= {words[field.port.name]};" for field in ins]
    sets += [f"        s_axis_tdata({field.end} downto {field.high + 1}) <= (others => '1');" for field in ins if field.end > field.high]
    compares = []
    for field in outs:
        word, name = words[field.port.name], field.port.name
        compares.append(f'        compare("{name}", m_axis_tdata({field.high} downto {field.low}), {word});')
    return VHDL_BENCH.format(
        functions=FUNCTIONS,
        name=facts.name,
        latency=facts.latency,
        half=max(facts.period // 2, 1),
        in_high=ins[-1].end,
        out_high=outs[-1].end,
        variables="\n".join(f"    variable {words[port.name]} : std_logic_vector({port.width - 1} downto 0);" for port in facts.ports),
        reads="\n".join(f"      read_word(row, {words[port.name]});" for port in facts.ports),
        sets="\n".join(sets),
        compares="\n".join(compares),
    )


def verilog_bench(facts: Report) -> str:
    """The test bench in Verilog."""
    ins, outs = fields_of(facts.inputs), fields_of(facts.outputs)
    words = words_for([port.name for port in facts.ports], VERILOG_WORDS | words_of(VERILOG_BENCH, "//"))
    compares = []
    for field in outs:
        found, wanted = f"m_axis_tdata[{field.high}:{field.low}]", words[field.port.name]
        compares.append(f"        if ({found} !== {wanted}) begin")
        compares.append("          faults = faults + 1;")
        compares.append(f'          $display("output %0d: {field.port.name} is %h in place of %h", taken, {found}, {wanted});')
        compares.append("        end")
    return VERILOG_BENCH.format(
        name=facts.name,
        latency=facts.latency,
        half=max(facts.period // 2, 1),
        in_high=ins[-1].end,
        in_size=ins[-1].end + 1,
        out_high=outs[-1].end,
        signals="\n".join(f"  reg [{port.width - 1}:0] {words[port.name]};" for port in facts.ports),
        format=" : ".join(" ".join(["%h"] * len(side)) for side in (facts.inputs, facts.outputs)),
        words=", ".join(words[port.name] for port in facts.ports),
        count=len(facts.ports),
        sets="\n".join(f"        s_axis_tdata[{field.high}:{field.low}] = {words[field.port.name]};" for field in ins),
        compares="\n".join(compares),
    )
