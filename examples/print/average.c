/* Notes, comments and any order of the words of a type are read; one layout is printed. */
;; the mean of two bytes, rounded down
char unsigned __GIMPLE (ssa,guessed_local(1073741824))
average (unsigned char a, unsigned char b)
{ int sum; int _3; unsigned char _4; int _6; int _7;
  __BB(2,guessed_local(1073741824)):
  _6 = (int) a_1(D); _7 = (int) b_2(D);   // no sum of two bytes is above 510
  sum_5 = _6 + _7;
  _3 = sum_5 >> 1u;
  _4 = (unsigned char) _3;
  return _4;
}
