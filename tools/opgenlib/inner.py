"""Names of signals inside of a wrapper or a test bench, beside ports whose names are the user's."""
import re
from collections.abc import Iterable, Sequence

VERILOG_WORDS = set(
    """always and assign automatic begin buf bufif0 bufif1 case casex casez cell cmos config deassign default defparam design disable edge
    else end endcase endconfig endfunction endgenerate endmodule endprimitive endspecify endtable endtask event for force forever fork
    function generate genvar highz0 highz1 if ifnone incdir include initial inout input instance integer join large liblist library
    localparam macromodule medium module nand negedge nmos nor noshowcancelled not notif0 notif1 or output parameter pmos posedge
    primitive pull0 pull1 pulldown pullup pulsestyle_ondetect pulsestyle_onevent rcmos real realtime reg release repeat rnmos rpmos rtran
    rtranif0 rtranif1 scalared showcancelled signed small specify specparam strong0 strong1 supply0 supply1 table task time tran tranif0
    tranif1 tri tri0 tri1 triand trior trireg unsigned use vectored wait wand weak0 weak1 while wire wor xnor xor
    alias always_comb always_ff always_latch assert assume before bind bins binsof bit break byte chandle checker class clocking const
    constraint context continue cover covergroup coverpoint cross dist do endchecker endclass endclocking endgroup endinterface
    endpackage endprogram endproperty endsequence enum eventually expect export extends extern final first_match foreach forkjoin global
    iff ignore_bins illegal_bins implies import inside int interface intersect join_any join_none let local logic longint matches modport
    new nexttime null package packed priority program property protected pure rand randc randcase randsequence ref restrict return
    s_always s_eventually s_nexttime s_until sequence shortint shortreal solve static string strong struct super sync_accept_on tagged
    this throughout timeprecision timeunit type typedef union unique unique0 until untyped var virtual void wait_order weak wildcard
    with within""".split()
)


def words_of(template: str, comment: str) -> set[str]:
    """The names and words of a template, in small letters, but for those of comments, texts and places that are filled in."""
    code = re.sub(rf"{comment}.*|\"[^\"\n]*\"|'.'|\{{+\w+\}}+", " ", template)
    return {word.lower() for word in re.findall(r"[A-Za-z_]\w*", code)}


def free(stem: str, taken: set[str]) -> str:
    """A name that is not taken, which is taken then: this one, or with a mark behind it."""
    name = stem
    while name in taken:
        name += "_i"
    taken.add(name)
    return name


def names_for(ports: Iterable[str], taken: set[str]) -> dict[str, str]:
    """For each port the name of its signal: its own, unless that is taken."""
    return {port: free(port, taken) for port in ports}


def words_for(ports: Sequence[str], taken: set[str]) -> dict[str, str]:
    """For each port the name of its word."""
    return {port: free(f"{port}_word", taken) for port in ports}
