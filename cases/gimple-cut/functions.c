unsigned int __GIMPLE (ssa)
f (unsigned int x)
{
  unsigned int _2;
  unsigned int _3;

  