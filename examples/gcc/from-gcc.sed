# Makes a GIMPLE file of a dump that GCC wrote with -fdump-tree-ssa-gimple or
# -fdump-tree-optimized-gimple (use: sed -E -f).
# What passes print outside functions goes.
/__GIMPLE \(/,/^\}/!d
# Under `_Literal (T)` a number has no suffix.
s/(_Literal \([a-z_0-9 A-Z]+\) -?[0-9]+)[uUlL]+/\1/g
