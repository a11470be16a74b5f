/* A limit that is switched off: 0 != 0 never holds. */
unsigned int __GIMPLE (ssa)
scale (unsigned int x)
{
  unsigned int y;
  unsigned int _4;

  __BB(2):
  if (0 != 0)
    goto __BB3;
  else
    goto __BB4;

  __BB(3):
  y_2 = x_1(D) & 255u;
  goto __BB4;

  __BB(4):
  y_3 = __PHI (__BB2: x_1(D), __BB3: y_2);
  _4 = y_3 * 3u;
  return _4;
}
