/* A misspelled operand. */
unsigned int __GIMPLE (ssa)
area (unsigned int width, unsigned int height)
{
  unsigned int _3;

  __BB(2):
  _3 = width_1(D) * hight_2(D);
  return _3;
}
