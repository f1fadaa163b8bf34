# A study text as an ngspice netlist: the same elements from rest, the same step as the largest step, all that a listing has printed at each step.
# Sources are ramps from the start of step 1; switches and VC are not translated: a study with one is refused.
BEGIN { FS = "\t" }
$1 == "study" { step = $2; steps = $3; print "study"; next }
$1 == "VS" || $1 == "IS" || $1 == "VC" {
    if ($1 == "VC" || $4 != 1 || $5 < 1) { print "only ramps from step 1 are translated" > "/dev/stderr"; exit 1 }
    peak = $3 * ($1 == "VS" ? 1e-1 : 1e-10)
    ramp = sprintf("PWL(0 0 %dn %.10g)", $5 * step, peak)
    if ($1 == "VS") printf "V%d %s 0 %s\n", NR, $2, ramp
    else printf "I%d 0 %s %s\n", NR, $2, ramp
    next
}
{ branches++; print_i = "" }
$1 == "R" { printf "R%d %s %s %.10g\n", NR, $2, $3, $4 / 1000; print_i = "@r" NR "[i]" }
$1 == "L" { printf "L%d %s %s %sn IC=0\n", NR, $2, $3, $4; print_i = "@l" NR "[i]" }
$1 == "C" { printf "C%d %s %s %sp IC=0\n", NR, $2, $3, $4; print_i = "@c" NR "[i]" }
$1 == "LINE" { printf "T%d %s 0 %s 0 Z0=%.10g TD=%sn REL=1000 ABS=1000 IC=0,0,0,0\n", NR, $2, $3, $4 / 1000, $5 }
$1 == "SW" || $1 == "SWT" { print "no switches" > "/dev/stderr"; exit 1 }
{ for (i = 2; i <= 3; i++) if ($i + 0 > nodes) nodes = $i + 0; if (print_i != "") currents = currents " " print_i }
END {
    print ".options method=trap"
    print ".control"
    printf "save"
    for (n = 1; n <= nodes; n++) printf " v(%d)", n
    print currents
    printf "tran %dn %dn 0 %dn uic\nprint col", step, step * steps, step
    for (n = 1; n <= nodes; n++) printf " v(%d)", n
    print currents
    print ".endc"
    print ".end"
}
