int __GIMPLE (ssa)
f (int x)
{

  __BB(2):
  if (x_1(D) < 0)
    goto __BB3;
  else
    goto __BB3;

  __BB(3):
  return x_1(D);
}

int __GIMPLE (ssa)
g (int x)
{
  int y;

  __BB(2):
  y_2 = x_1(D) + 1;
  return y_2;
}
