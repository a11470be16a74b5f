/* The name _3 gets its value on one of the two paths to its use. */
int __GIMPLE (ssa)
absolute (int x)
{
  int _3;

  __BB(2):
  if (x_1(D) < 0)
    goto __BB3;
  else
    goto __BB4;

  __BB(3):
  _3 = -x_1(D);
  goto __BB4;

  __BB(4):
  return _3;
}
