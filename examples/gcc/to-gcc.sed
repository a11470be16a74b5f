# Makes functions for `gcc -fgimple` of what the program prints (use: sed -E -f).
# A function is taken as a whole, up to its last line.
:function
/\n\}$/! {
  $! {
    N
    b function
  }
}
# GCC wants a definition of each name that is declared without a base, so those that nothing uses
# go: a declaration with a use behind it is marked, and those without a mark are dropped.
:declared
s/\n  ([a-zA-Z_0-9 ]+ )(_[0-9]+);(.*[^A-Za-z0-9_]\2[^0-9])/\n@ \1\2;\3/
t declared
s/\n  (_Bool|signed char|(unsigned )?(char|short|int|long|__int128)) _[0-9]+;//g
s/\n@ /\n  /g
# Behind an operator and in a phi GCC takes a negative number under `_Literal (T)` alone. Those that
# stand so already are marked first.
s/(_Literal \([a-zA-Z_0-9 ]+\) )-/\1@/g
s/-([0-9]+)l/_Literal (long) @\1/g
s/-([0-9]+)/_Literal (int) @\1/g
s/@/-/g
