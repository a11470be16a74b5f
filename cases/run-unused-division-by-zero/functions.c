int __GIMPLE (ssa)
f ()
{
  int _1;

  __BB(2):
  _1 = 1 / 0;
  return 7;
}
