"""The wrapper of an operator in VHDL, its package, and its test bench: VHDL-93, which VHDL-2008 takes too."""
from .inner import free, names_for, words_for, words_of
from .report import Port, Report
from .sorts import Sort

WRAP = """{head}
library ieee;
use ieee.std_logic_1164.all;
use ieee.numeric_std.all;

package {name}_pkg is
  -- Cycles from an input to its output{of_ce}, and the period in picoseconds.
  constant {name}_latency : natural := {latency};
  constant {name}_period : positive := {period};
  -- A port's number times 2**lsb is its value.
{constants}

  -- The circuit, with words.
  component {name} is
    port (
{words}
    );
  end component;

  -- The same with numbers.
  component {name}_wrap is
    port (
{numbers}
    );
  end component;
end package;

library ieee;
use ieee.std_logic_1164.all;
use ieee.numeric_std.all;

entity {name}_wrap is
  port (
{entity_ports}
  );
end entity;

architecture rtl of {name}_wrap is
{signals}
begin
  {label} : entity work.{name} port map ({actuals});
{assigns}
{valid}end architecture;
"""

VALID = """
  -- One register for each cycle of the latency, beside the data: rst resets these alone.
  valid_out <= {out};
  process (clk)
  begin
    if rising_edge(clk) then
      if rst = '1' then
        {valid} <= (others => '0');
      els{ce}
{moved}
      end if;
    end if;
  end process;
"""

# What a bench reads rows and shows words by.
FUNCTIONS = """  -- Four bits, of a hexadecimal digit.
  function nibble(letter : character) return unsigned is
  begin
    case letter is
      when '0' to '9' => return to_unsigned(character'pos(letter) - character'pos('0'), 4);
      when 'a' to 'f' => return to_unsigned(character'pos(letter) - character'pos('a') + 10, 4);
      when 'A' to 'F' => return to_unsigned(character'pos(letter) - character'pos('A') + 10, 4);
      when others => assert false report "no hexadecimal digit: " & letter severity failure;
    end case;
    return "0000";
  end function;

  -- The next word of a row.
  procedure read_word(row : inout line; word : out std_logic_vector) is
    constant digits : positive := (word'length + 3) / 4;
    variable bits : unsigned(4 * digits - 1 downto 0) := (others => '0');
    variable letter : character;
    variable good : boolean;
  begin
    loop
      read(row, letter, good);
      exit when not good or (letter /= ' ' and letter /= ':');
    end loop;
    for digit in 1 to digits loop
      assert good report "a row is too short" severity failure;
      bits := shift_left(bits, 4);
      bits(3 downto 0) := nibble(letter);
      if digit < digits then
        read(row, letter, good);
      end if;
    end loop;
    word := std_logic_vector(bits(word'length - 1 downto 0));
  end procedure;

  -- The hexadecimal digits of a word, X where a bit is not 0 or 1.
  function hex(word : std_logic_vector) return string is
    constant digits : positive := (word'length + 3) / 4;
    constant letters : string(1 to 16) := "0123456789abcdef";
    variable bits : std_logic_vector(4 * digits - 1 downto 0) := (others => '0');
    variable text : string(1 to digits);
  begin
    bits(word'length - 1 downto 0) := word;
    for digit in 1 to digits loop
      if is_x(bits(4 * digits - 1 downto 4 * digits - 4)) then
        text(digit) := 'X';
      else
        text(digit) := letters(to_integer(unsigned(bits(4 * digits - 1 downto 4 * digits - 4))) + 1);
      end if;
      bits := std_logic_vector(shift_left(unsigned(bits), 4));
    end loop;
    return text;
  end function;
"""

BENCH = """-- A test bench of {name}_wrap for the rows of {name}.vec: it ends with a failure where an output differs.
--     ghdl -a --std=93 {name}.vhd {name}_wrap.vhd {name}_bench.vhd
--     ghdl -e --std=93 {name}_bench
--     ghdl -r --std=93 {name}_bench --ieee-asserts=disable-at-0
-- The outputs of a row belong to the inputs of the row {name}_latency before it. Those of the first {name}_latency rows
-- come from the registers' initial values; of a circuit whose registers have none, begin at a later row: -gfirst={latency}
-- Written by tools/wrap; VHDL-93 and VHDL-2008.
library ieee;
use ieee.std_logic_1164.all;
use ieee.numeric_std.all;
use std.textio.all;
use work.{name}_pkg.all;

entity {name}_bench is
  generic (
    rows_file : string := "{name}.vec";
    first : natural := 0
  );
end entity;

architecture test of {name}_bench is
  constant half : time := {half} ps;
  signal clk : std_logic := '0';
{signals}

{functions}begin
  dut : entity work.{name}_wrap port map ({actuals});

  process
    file rows : text open read_mode is rows_file;
    variable row : line;
{variables}
    variable cycle, faults : natural := 0;

    -- Where an output comes from.
    function origin(at : natural) return string is
    begin
      if at < {name}_latency then
        return "from initial values";
      end if;
      return "from the inputs of row " & integer'image(at - {name}_latency);
    end function;

{wanted}    -- Counts an output that is not the row's.
    procedure compare(name : string; found, wanted : std_logic_vector) is
    begin
      if cycle >= first and found /= wanted then
        faults := faults + 1;
        report "row " & integer'image(cycle) & ": " & name & " is " & hex(found) & " in place of " & hex(wanted) & ", " &
          origin(cycle) severity error;
      end if;
    end procedure;

    procedure edge is
    begin
      clk <= '1';
      wait for half;
      clk <= '0';
    end procedure;
  begin
    while not endfile(rows) loop
      readline(rows, row);
{reads}
      assert row'length = 0 report "row " & integer'image(cycle) & " has more words than ports" severity failure;
{sets}
      wait for half;
{compares}
      edge;
{pauses}      cycle := cycle + 1;
    end loop;
    assert cycle > first report "no rows to compare in " & rows_file severity failure;
{reset}    assert faults = 0 report integer'image(faults) & " outputs differ" severity failure;
    report "{name}: all outputs agree in " & integer'image(cycle - first) & " rows, latency {latency}";
    wait;
  end process;
end architecture;
"""

PAUSES = """      if cycle mod 3 = 2 then
        {ce} <= '0';
{inverted}
        wait for half;
{silent}        edge;
        {ce} <= '1';
      end if;
"""

SILENT = """        assert valid_out = '0' report "valid_out in a gap behind row " & integer'image(cycle) severity failure;
"""

WANTED = """    -- The valid bit in a cycle: that of the row from whose inputs its outputs come.
    function valid_at(at : integer) return std_logic is
    begin
      if at < 0{gaps} then
        return '0';
      end if;
      return '1';
    end function;

"""

RESET = """    rst <= '1';
    valid_in <= '1';
    wait for half;
    edge;
    rst <= '0';
    for passed in 0 to {name}_latency loop
      wait for half;
      assert (valid_out = '1') = (passed = {name}_latency) report "valid_out after a reset" severity failure;
      edge;
    end loop;
"""


def type_of(port: Port, is_word: bool) -> str:
    return f"{'std_logic_vector' if is_word else port.sign}({port.width - 1} downto 0)"


def port_lines(facts: Report, sort: Sort, is_word: bool, indent: int) -> str:
    """The port clause: of the circuit, with words, or of the wrapper, with numbers."""
    lines = ["clk : in std_logic"]
    if sort.has_enable if is_word else sort.has_ce:
        lines.append("ce : in std_logic_vector(0 downto 0)" if is_word else "ce : in std_logic")
    if sort.has_valid and not is_word:
        lines += ["rst : in std_logic", "valid_in : in std_logic", "valid_out : out std_logic"]
    lines += [f"{port.name} : {'in' if port.is_input else 'out'} {type_of(port, is_word)}" for port in facts.ports]
    return ";\n".join(" " * indent + line for line in lines)


def constants(facts: Report) -> str:
    lines = []
    for port in facts.ports:
        stem = f"{facts.name}_{port.name}"
        lines.append(f"  constant {stem}_width : positive := {port.width};")
        lines.append(f"  constant {stem}_lsb : integer := {port.lsb};")
        lines.append(f"  constant {stem}_signed : boolean := {str(port.is_signed).lower()};")
    return "\n".join(lines)


def valid_signals(facts: Report, valid: str) -> list[str]:
    return [f"  signal {valid} : std_logic_vector(1 to {facts.latency}) := (others => '0');"] if facts.latency else []


def valid_text(facts: Report, sort: Sort, valid: str) -> str:
    """The registers of the valid bit, which have this name."""
    if facts.latency == 0:
        return "  valid_out <= valid_in;\n"
    moved = [f"        {valid}(1) <= valid_in;"]
    if facts.latency > 1:
        moved.append(f"        {valid}(2 to {facts.latency}) <= {valid}(1 to {facts.latency - 1});")
    last = f"{valid}({facts.latency})"
    enable = "valid_in" if sort.is_gated else "ce"
    return VALID.format(
        out=f"valid_in and {last}" if sort.is_gated else last,
        valid=valid,
        ce=f"if {enable} = '1' then" if sort.has_enable else "e",
        moved="\n".join(moved),
    )


def wrap_text(facts: Report, sort: Sort, head: str) -> str:
    """The package and the entity."""
    taken = {"clk", "ce", "rst", "valid_in", "valid_out", *(port.name for port in facts.ports)}
    words = words_for([port.name for port in facts.ports] + ["ce"], taken)
    valid = free("valid", taken)
    signals = [f"  signal {words[port.name]} : {type_of(port, True)};" for port in facts.ports]
    signals += [f"  signal {words['ce']} : std_logic_vector(0 downto 0);"] if sort.has_enable else []
    signals += valid_signals(facts, valid) if sort.has_valid else []
    assigns = [f"  {words[port.name]} <= std_logic_vector({port.name});" for port in facts.inputs]
    assigns += [f"  {words['ce']}(0) <= {'valid_in' if sort.is_gated else 'ce'};"] if sort.has_enable else []
    assigns += [f"  {port.name} <= {port.sign}({words[port.name]});" for port in facts.outputs]
    actuals = [f"{name} => {words[name]}" for name in [*(["ce"] if sort.has_enable else []), *(port.name for port in facts.ports)]]
    return WRAP.format(
        head=head,
        of_ce=f" in which {'valid_in' if sort.is_gated else 'ce'} is 1" if sort.has_enable else "",
        name=facts.name,
        latency=facts.latency,
        period=facts.period,
        constants=constants(facts),
        words=port_lines(facts, sort, True, 6),
        numbers=port_lines(facts, sort, False, 6),
        entity_ports=port_lines(facts, sort, False, 4),
        signals="\n".join(signals),
        label=free("circuit", taken),
        actuals=", ".join(["clk => clk", *actuals]),
        assigns="\n".join(assigns),
        valid=valid_text(facts, sort, valid) if sort.has_valid else "",
    )


def pauses_text(sort: Sort, inverted: list[str]) -> str:
    """Cycles that the circuit does not take, with other inputs."""
    if not sort.has_enable:
        return ""
    silent = SILENT if sort.is_gated else ""
    return PAUSES.format(ce="valid_in" if sort.is_gated else "ce", inverted="\n".join(inverted), silent=silent)


def bench_text(facts: Report, sort: Sort) -> str:
    """The test bench."""
    has_valid = sort.has_valid
    taken = words_of("".join((BENCH, FUNCTIONS, PAUSES, SILENT, WANTED, RESET)), "--") | {f"{facts.name}_latency", f"{facts.name}_pkg", "rst", "valid_in", "valid_out"}
    sides = names_for([port.name for port in facts.ports], taken)
    words = words_for([port.name for port in facts.ports], taken)
    signals = ["  signal ce : std_logic := '1';"] if sort.has_ce else []
    signals += ["  signal rst, valid_in : std_logic := '0';", "  signal valid_out : std_logic;"] if has_valid else []
    for port in facts.ports:
        initial = " := (others => '0')" if port.is_input else ""
        signals.append(f"  signal {sides[port.name]} : {type_of(port, False)}{initial};")
    valid = ["rst", "valid_in", "valid_out"] if has_valid else []
    names = ["clk", *(["ce"] if sort.has_ce else []), *valid, *(port.name for port in facts.ports)]
    inverted = [f"        {sides[port.name]} <= {port.sign}(not {words[port.name]});" for port in facts.inputs]
    sets = [f"      {sides[port.name]} <= {port.sign}({words[port.name]});" for port in facts.inputs]
    sent = "'1'" if sort.is_gated else "valid_at(cycle)"
    sets += [f"      valid_in <= {sent};"] if has_valid else []
    compares = [f'      compare("{port.name}", std_logic_vector({sides[port.name]}), {words[port.name]});' for port in facts.outputs]
    late = f"valid_at(cycle - {facts.name}_latency)"
    compares += [f'      assert valid_out = {late} report "valid_out in row " & integer\'image(cycle) severity failure;'] if has_valid else []
    return BENCH.format(
        functions=FUNCTIONS,
        name=facts.name,
        latency=facts.latency,
        half=max(facts.period // 2, 1),
        signals="\n".join(signals),
        actuals=", ".join(f"{name} => {sides.get(name, name)}" for name in names),
        variables="\n".join(f"    variable {words[port.name]} : {type_of(port, True)};" for port in facts.ports),
        reads="\n".join(f"      read_word(row, {words[port.name]});" for port in facts.ports),
        sets="\n".join(sets),
        compares="\n".join(compares),
        pauses=pauses_text(sort, inverted),
        wanted=WANTED.format(gaps="" if sort.is_gated else " or at mod 4 = 3") if has_valid else "",
        reset=RESET.format(name=facts.name) if has_valid and facts.latency else "",
    )
