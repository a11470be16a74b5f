unsigned int __GIMPLE (ssa)
f (unsigned int n)
{
  unsigned int i;
  unsigned int _3;
  unsigned int _6;

  __BB(2):
  goto __BB3;

  __BB(3):
  i_2 = __PHI (__BB2: 0u, __BB3: i_4);
  _3 = i_2 + 1u;
  i_4 = i_2 + 1u;
  if (i_4 < n_1(D))
    goto __BB3;
  else
    goto __BB4;

  __BB(4):
  _6 = i_2 + 1u;
  return _6;
}
