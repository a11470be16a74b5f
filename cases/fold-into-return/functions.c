unsigned int __GIMPLE (ssa)
f (unsigned int x)
{
  unsigned int _2;

  __BB(2):
  _2 = 3u - 5u;
  return _2;
}
