# Makes a history for `lockup judge` of a log that has a line for each access: time, core, address, kind, data, answer.
# Addresses become words in the order in which they come; each begins as 0. Lines keep their numbers.
NR == 1 { print "lockup-history 1"; next }
!($3 in word) { word[$3] = words++ }
{ access = "core " $2 " " $4 " " word[$3] }
$4 == "load" { print access, $6 }
$4 == "store" { print access, $5 }
$4 == "add" { print access, $5, $6 }
