int __GIMPLE (ssa)
g (int x)
{
  int y;

  __BB(2):
  y_2 = x_1(D) + 1;
  return y_2;
}
