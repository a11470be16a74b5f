int __GIMPLE (ssa)
f0 (int x)
{
  int _2;

  __BB(2):
  _2 = x_1(D) + 2;
  return _2;
}

int __GIMPLE (ssa)
f1 (int x)
{
  int _2;

  __BB(2):
  _2 = x_1(D) + 3;
  return _2;
}

int __GIMPLE (ssa)
f2 (int x)
{
  int _2;

  __BB(2):
  _2 = x_1(D) + 4;
  return _2;
}

int __GIMPLE (ssa)
f3 (int x)
{
  int _2;

  __BB(2):
  _2 = x_1(D) + 5;
  return _2;
}

int __GIMPLE (ssa)
f4 (int x)
{
  int _2;

  __BB(2):
  _2 = x_1(D) + 6;
  return _2;
}

int __GIMPLE (ssa)
f5 (int x)
{
  int _2;

  __BB(2):
  _2 = x_1(D) + 7;
  return _2;
}

int __GIMPLE (ssa)
f6 (int x)
{
  int _2;

  __BB(2):
  _2 = x_1(D) + 8;
  return _2;
}

int __GIMPLE (ssa)
f7 (int x)
{
  int _2;

  __BB(2):
  _2 = x_1(D) + 9;
  return _2;
}

int __GIMPLE (ssa)
f8 (int x)
{
  int _2;

  __BB(2):
  _2 = x_1(D) + 10;
  return _2;
}

int __GIMPLE (ssa)
f9 (int x)
{
  int _2;

  __BB(2):
  _2 = x_1(D) + 11;
  return _2;
}

int __GIMPLE (ssa)
f10 (int x)
{
  int _2;

  __BB(2):
  _2 = x_1(D) + 12;
  return _2;
}

int __GIMPLE (ssa)
f11 (int x)
{
  int _2;

  __BB(2):
  _2 = x_1(D) + 13;
  return _2;
}

int __GIMPLE (ssa)
f12 (int x)
{
  int _2;

  __BB(2):
  _2 = x_1(D) + 14;
  return _2;
}

int __GIMPLE (ssa)
f13 (int x)
{
  int _2;

  __BB(2):
  _2 = x_1(D) + 15;
  return _2;
}

int __GIMPLE (ssa)
f14 (int x)
{
  int _2;

  __BB(2):
  _2 = x_1(D) + 16;
  return _2;
}

int __GIMPLE (ssa)
f15 (int x)
{
  int _2;

  __BB(2):
  _2 = x_1(D) + 17;
  return _2;
}

int __GIMPLE (ssa)
f16 (int x)
{
  int _2;

  __BB(2):
  _2 = x_1(D) + 18;
  return _2;
}

int __GIMPLE (ssa)
f17 (int x)
{
  int _2;

  __BB(2):
  _2 = x_1(D) + 19;
  return _2;
}

int __GIMPLE (ssa)
f18 (int x)
{
  int _2;

  __BB(2):
  _2 = x_1(D) + 20;
  return _2;
}

int __GIMPLE (ssa)
f19 (int x)
{
  int _2;

  __BB(2):
  _2 = x_1(D) + 21;
  return _2;
}

int __GIMPLE (ssa)
f20 (int x)
{
  int _2;

  __BB(2):
  _2 = x_1(D) + 22;
  return _2;
}

int __GIMPLE (ssa)
f21 (int x)
{
  int _2;

  __BB(2):
  _2 = x_1(D) + 23;
  return _2;
}

int __GIMPLE (ssa)
f22 (int x)
{
  int _2;

  __BB(2):
  _2 = x_1(D) + 24;
  return _2;
}

int __GIMPLE (ssa)
f23 (int x)
{
  int _2;

  __BB(2):
  _2 = x_1(D) + 25;
  return _2;
}

int __GIMPLE (ssa)
f24 (int x)
{
  int _2;

  __BB(2):
  _2 = x_1(D) + 26;
  return _2;
}

int __GIMPLE (ssa)
f25 (int x)
{
  int _2;

  __BB(2):
  _2 = x_1(D) + 27;
  return _2;
}

int __GIMPLE (ssa)
f26 (int x)
{
  int _2;

  __BB(2):
  _2 = x_1(D) + 28;
  return _2;
}

int __GIMPLE (ssa)
f27 (int x)
{
  int _2;

  __BB(2):
  _2 = x_1(D) + 29;
  return _2;
}

int __GIMPLE (ssa)
f28 (int x)
{
  int _2;

  __BB(2):
  _2 = x_1(D) + 30;
  return _2;
}

int __GIMPLE (ssa)
f29 (int x)
{
  int _2;

  __BB(2):
  _2 = x_1(D) + 31;
  return _2;
}

int __GIMPLE (ssa)
f30 (int x)
{
  int _2;

  __BB(2):
  _2 = x_1(D) + 32;
  return _2;
}

int __GIMPLE (ssa)
f31 (int x)
{
  int _2;

  __BB(2):
  _2 = x_1(D) + 33;
  return _2;
}

int __GIMPLE (ssa)
f32 (int x)
{
  int _2;

  __BB(2):
  _2 = x_1(D) + 34;
  return _2;
}

int __GIMPLE (ssa)
f33 (int x)
{
  int _2;

  __BB(2):
  _2 = x_1(D) + 35;
  return _2;
}

int __GIMPLE (ssa)
f34 (int x)
{
  int _2;

  __BB(2):
  _2 = x_1(D) + 36;
  return _2;
}

int __GIMPLE (ssa)
f35 (int x)
{
  int _2;

  __BB(2):
  _2 = x_1(D) + 37;
  return _2;
}

int __GIMPLE (ssa)
f36 (int x)
{
  int _2;

  __BB(2):
  _2 = x_1(D) + 38;
  return _2;
}

int __GIMPLE (ssa)
f37 (int x)
{
  int _2;

  __BB(2):
  _2 = x_1(D) + 39;
  return _2;
}

int __GIMPLE (ssa)
f38 (int x)
{
  int _2;

  __BB(2):
  _2 = x_1(D) + 40;
  return _2;
}

int __GIMPLE (ssa)
f39 (int x)
{
  int _2;

  __BB(2):
  _2 = x_1(D) + 41;
  return _2;
}

int __GIMPLE (ssa)
f40 (int x)
{
  int _2;

  __BB(2):
  _2 = x_1(D) + 42;
  return _2;
}

int __GIMPLE (ssa)
f41 (int x)
{
  int _2;

  __BB(2):
  _2 = x_1(D) + 43;
  return _2;
}

int __GIMPLE (ssa)
f42 (int x)
{
  int _2;

  __BB(2):
  _2 = x_1(D) + 44;
  return _2;
}

int __GIMPLE (ssa)
f43 (int x)
{
  int _2;

  __BB(2):
  _2 = x_1(D) + 45;
  return _2;
}

int __GIMPLE (ssa)
f44 (int x)
{
  int _2;

  __BB(2):
  _2 = x_1(D) + 46;
  return _2;
}

int __GIMPLE (ssa)
f45 (int x)
{
  int _2;

  __BB(2):
  _2 = x_1(D) + 47;
  return _2;
}

int __GIMPLE (ssa)
f46 (int x)
{
  int _2;

  __BB(2):
  _2 = x_1(D) + 48;
  return _2;
}

int __GIMPLE (ssa)
f47 (int x)
{
  int _2;

  __BB(2):
  _2 = x_1(D) + 49;
  return _2;
}

int __GIMPLE (ssa)
f48 (int x)
{
  int _2;

  __BB(2):
  _2 = x_1(D) + 50;
  return _2;
}

int __GIMPLE (ssa)
f49 (int x)
{
  int _2;

  __BB(2):
  _2 = x_1(D) + 51;
  return _2;
}

int __GIMPLE (ssa)
f50 (int x)
{
  int _2;

  __BB(2):
  _2 = x_1(D) + 52;
  return _2;
}

int __GIMPLE (ssa)
f51 (int x)
{
  int _2;

  __BB(2):
  _2 = x_1(D) + 53;
  return _2;
}

int __GIMPLE (ssa)
f52 (int x)
{
  int _2;

  __BB(2):
  _2 = x_1(D) + 54;
  return _2;
}

int __GIMPLE (ssa)
f53 (int x)
{
  int _2;

  __BB(2):
  _2 = x_1(D) + 55;
  return _2;
}

int __GIMPLE (ssa)
f54 (int x)
{
  int _2;

  __BB(2):
  _2 = x_1(D) + 56;
  return _2;
}

int __GIMPLE (ssa)
f55 (int x)
{
  int _2;

  __BB(2):
  _2 = x_1(D) + 57;
  return _2;
}

int __GIMPLE (ssa)
f56 (int x)
{
  int _2;

  __BB(2):
  _2 = x_1(D) + 58;
  return _2;
}

int __GIMPLE (ssa)
f57 (int x)
{
  int _2;

  __BB(2):
  _2 = x_1(D) + 59;
  return _2;
}

int __GIMPLE (ssa)
f58 (int x)
{
  int _2;

  __BB(2):
  _2 = x_1(D) + 60;
  return _2;
}

int __GIMPLE (ssa)
f59 (int x)
{
  int _2;

  __BB(2):
  _2 = x_1(D) + 61;
  return _2;
}

int __GIMPLE (ssa)
f60 (int x)
{
  int _2;

  __BB(2):
  _2 = x_1(D) + 62;
  return _2;
}

int __GIMPLE (ssa)
f61 (int x)
{
  int _2;

  __BB(2):
  _2 = x_1(D) + 63;
  return _2;
}

int __GIMPLE (ssa)
f62 (int x)
{
  int _2;

  __BB(2):
  _2 = x_1(D) + 64;
  return _2;
}

int __GIMPLE (ssa)
f63 (int x)
{
  int _2;

  __BB(2):
  _2 = x_1(D) + 65;
  return _2;
}

int __GIMPLE (ssa)
f64 (int x)
{
  int _2;

  __BB(2):
  _2 = x_1(D) + 66;
  return _2;
}

int __GIMPLE (ssa)
f65 (int x)
{
  int _2;

  __BB(2):
  _2 = x_1(D) + 67;
  return _2;
}

int __GIMPLE (ssa)
f66 (int x)
{
  int _2;

  __BB(2):
  _2 = x_1(D) + 68;
  return _2;
}

int __GIMPLE (ssa)
f67 (int x)
{
  int _2;

  __BB(2):
  _2 = x_1(D) + 69;
  return _2;
}

int __GIMPLE (ssa)
f68 (int x)
{
  int _2;

  __BB(2):
  _2 = x_1(D) + 70;
  return _2;
}

int __GIMPLE (ssa)
f69 (int x)
{
  int _2;

  __BB(2):
  _2 = x_1(D) + 71;
  return _2;
}

int __GIMPLE (ssa)
f70 (int x)
{
  int _2;

  __BB(2):
  _2 = x_1(D) + 72;
  return _2;
}

int __GIMPLE (ssa)
f71 (int x)
{
  int _2;

  __BB(2):
  _2 = x_1(D) + 73;
  return _2;
}

int __GIMPLE (ssa)
f72 (int x)
{
  int _2;

  __BB(2):
  _2 = x_1(D) + 74;
  return _2;
}

int __GIMPLE (ssa)
f73 (int x)
{
  int _2;

  __BB(2):
  _2 = x_1(D) + 75;
  return _2;
}

int __GIMPLE (ssa)
f74 (int x)
{
  int _2;

  __BB(2):
  _2 = x_1(D) + 76;
  return _2;
}

int __GIMPLE (ssa)
f75 (int x)
{
  int _2;

  __BB(2):
  _2 = x_1(D) + 77;
  return _2;
}

int __GIMPLE (ssa)
f76 (int x)
{
  int _2;

  __BB(2):
  _2 = x_1(D) + 78;
  return _2;
}

int __GIMPLE (ssa)
f77 (int x)
{
  int _2;

  __BB(2):
  _2 = x_1(D) + 79;
  return _2;
}

int __GIMPLE (ssa)
f78 (int x)
{
  int _2;

  __BB(2):
  _2 = x_1(D) + 80;
  return _2;
}

int __GIMPLE (ssa)
f79 (int x)
{
  int _2;

  __BB(2):
  _2 = x_1(D) + 81;
  return _2;
}

int __GIMPLE (ssa)
f80 (int x)
{
  int _2;

  __BB(2):
  _2 = x_1(D) + 82;
  return _2;
}

int __GIMPLE (ssa)
f81 (int x)
{
  int _2;

  __BB(2):
  _2 = x_1(D) + 83;
  return _2;
}

int __GIMPLE (ssa)
f82 (int x)
{
  int _2;

  __BB(2):
  _2 = x_1(D) + 84;
  return _2;
}

int __GIMPLE (ssa)
f83 (int x)
{
  int _2;

  __BB(2):
  _2 = x_1(D) + 85;
  return _2;
}

int __GIMPLE (ssa)
f84 (int x)
{
  int _2;

  __BB(2):
  _2 = x_1(D) + 86;
  return _2;
}

int __GIMPLE (ssa)
f85 (int x)
{
  int _2;

  __BB(2):
  _2 = x_1(D) + 87;
  return _2;
}

int __GIMPLE (ssa)
f86 (int x)
{
  int _2;

  __BB(2):
  _2 = x_1(D) + 88;
  return _2;
}

int __GIMPLE (ssa)
f87 (int x)
{
  int _2;

  __BB(2):
  _2 = x_1(D) + 89;
  return _2;
}

int __GIMPLE (ssa)
f88 (int x)
{
  int _2;

  __BB(2):
  _2 = x_1(D) + 90;
  return _2;
}

int __GIMPLE (ssa)
f89 (int x)
{
  int _2;

  __BB(2):
  _2 = x_1(D) + 91;
  return _2;
}

int __GIMPLE (ssa)
f90 (int x)
{
  int _2;

  __BB(2):
  _2 = x_1(D) + 92;
  return _2;
}

int __GIMPLE (ssa)
f91 (int x)
{
  int _2;

  __BB(2):
  _2 = x_1(D) + 93;
  return _2;
}

int __GIMPLE (ssa)
f92 (int x)
{
  int _2;

  __BB(2):
  _2 = x_1(D) + 94;
  return _2;
}

int __GIMPLE (ssa)
f93 (int x)
{
  int _2;

  __BB(2):
  _2 = x_1(D) + 95;
  return _2;
}

int __GIMPLE (ssa)
f94 (int x)
{
  int _2;

  __BB(2):
  _2 = x_1(D) + 96;
  return _2;
}

int __GIMPLE (ssa)
f95 (int x)
{
  int _2;

  __BB(2):
  _2 = x_1(D) + 97;
  return _2;
}

int __GIMPLE (ssa)
f96 (int x)
{
  int _2;

  __BB(2):
  _2 = x_1(D) + 98;
  return _2;
}

int __GIMPLE (ssa)
f97 (int x)
{
  int _2;

  __BB(2):
  _2 = x_1(D) + 99;
  return _2;
}

int __GIMPLE (ssa)
f98 (int x)
{
  int _2;

  __BB(2):
  _2 = x_1(D) + 100;
  return _2;
}

int __GIMPLE (ssa)
f99 (int x)
{
  int _2;

  __BB(2):
  _2 = x_1(D) + 101;
  return _2;
}

int __GIMPLE (ssa)
f100 (int x)
{
  int _2;

  __BB(2):
  _2 = x_1(D) + 102;
  return _2;
}

int __GIMPLE (ssa)
f101 (int x)
{
  int _2;

  __BB(2):
  _2 = x_1(D) + 103;
  return _2;
}

int __GIMPLE (ssa)
f102 (int x)
{
  int _2;

  __BB(2):
  _2 = x_1(D) + 104;
  return _2;
}

int __GIMPLE (ssa)
f103 (int x)
{
  int _2;

  __BB(2):
  _2 = x_1(D) + 105;
  return _2;
}

int __GIMPLE (ssa)
f104 (int x)
{
  int _2;

  __BB(2):
  _2 = x_1(D) + 106;
  return _2;
}

int __GIMPLE (ssa)
f105 (int x)
{
  int _2;

  __BB(2):
  _2 = x_1(D) + 107;
  return _2;
}

int __GIMPLE (ssa)
f106 (int x)
{
  int _2;

  __BB(2):
  _2 = x_1(D) + 108;
  return _2;
}

int __GIMPLE (ssa)
f107 (int x)
{
  int _2;

  __BB(2):
  _2 = x_1(D) + 109;
  return _2;
}

int __GIMPLE (ssa)
f108 (int x)
{
  int _2;

  __BB(2):
  _2 = x_1(D) + 110;
  return _2;
}

int __GIMPLE (ssa)
f109 (int x)
{
  int _2;

  __BB(2):
  _2 = x_1(D) + 111;
  return _2;
}

int __GIMPLE (ssa)
f110 (int x)
{
  int _2;

  __BB(2):
  _2 = x_1(D) + 112;
  return _2;
}

int __GIMPLE (ssa)
f111 (int x)
{
  int _2;

  __BB(2):
  _2 = x_1(D) + 113;
  return _2;
}

int __GIMPLE (ssa)
f112 (int x)
{
  int _2;

  __BB(2):
  _2 = x_1(D) + 114;
  return _2;
}

int __GIMPLE (ssa)
f113 (int x)
{
  int _2;

  __BB(2):
  _2 = x_1(D) + 115;
  return _2;
}

int __GIMPLE (ssa)
f114 (int x)
{
  int _2;

  __BB(2):
  _2 = x_1(D) + 116;
  return _2;
}

int __GIMPLE (ssa)
f115 (int x)
{
  int _2;

  __BB(2):
  _2 = x_1(D) + 117;
  return _2;
}

int __GIMPLE (ssa)
f116 (int x)
{
  int _2;

  __BB(2):
  _2 = x_1(D) + 118;
  return _2;
}

int __GIMPLE (ssa)
f117 (int x)
{
  int _2;

  __BB(2):
  _2 = x_1(D) + 119;
  return _2;
}

int __GIMPLE (ssa)
f118 (int x)
{
  int _2;

  __BB(2):
  _2 = x_1(D) + 120;
  return _2;
}

int __GIMPLE (ssa)
f119 (int x)
{
  int _2;

  __BB(2):
  _2 = x_1(D) + 121;
  return _2;
}

int __GIMPLE (ssa)
f120 (int x)
{
  int _2;

  __BB(2):
  _2 = x_1(D) + 122;
  return _2;
}

int __GIMPLE (ssa)
f121 (int x)
{
  int _2;

  __BB(2):
  _2 = x_1(D) + 123;
  return _2;
}

int __GIMPLE (ssa)
f122 (int x)
{
  int _2;

  __BB(2):
  _2 = x_1(D) + 124;
  return _2;
}

int __GIMPLE (ssa)
f123 (int x)
{
  int _2;

  __BB(2):
  _2 = x_1(D) + 125;
  return _2;
}

int __GIMPLE (ssa)
f124 (int x)
{
  int _2;

  __BB(2):
  _2 = x_1(D) + 126;
  return _2;
}

int __GIMPLE (ssa)
f125 (int x)
{
  int _2;

  __BB(2):
  _2 = x_1(D) + 127;
  return _2;
}

int __GIMPLE (ssa)
f126 (int x)
{
  int _2;

  __BB(2):
  _2 = x_1(D) + 128;
  return _2;
}

int __GIMPLE (ssa)
f127 (int x)
{
  int _2;

  __BB(2):
  _2 = x_1(D) + 129;
  return _2;
}

int __GIMPLE (ssa)
f128 (int x)
{
  int _2;

  __BB(2):
  _2 = x_1(D) + 130;
  return _2;
}

int __GIMPLE (ssa)
f129 (int x)
{
  int _2;

  __BB(2):
  _2 = x_1(D) + 131;
  return _2;
}

int __GIMPLE (ssa)
f130 (int x)
{
  int _2;

  __BB(2):
  _2 = x_1(D) + 132;
  return _2;
}

int __GIMPLE (ssa)
f131 (int x)
{
  int _2;

  __BB(2):
  _2 = x_1(D) + 133;
  return _2;
}

int __GIMPLE (ssa)
f132 (int x)
{
  int _2;

  __BB(2):
  _2 = x_1(D) + 134;
  return _2;
}

int __GIMPLE (ssa)
f133 (int x)
{
  int _2;

  __BB(2):
  _2 = x_1(D) + 135;
  return _2;
}

int __GIMPLE (ssa)
f134 (int x)
{
  int _2;

  __BB(2):
  _2 = x_1(D) + 136;
  return _2;
}

int __GIMPLE (ssa)
f135 (int x)
{
  int _2;

  __BB(2):
  _2 = x_1(D) + 137;
  return _2;
}

int __GIMPLE (ssa)
f136 (int x)
{
  int _2;

  __BB(2):
  _2 = x_1(D) + 138;
  return _2;
}

int __GIMPLE (ssa)
f137 (int x)
{
  int _2;

  __BB(2):
  _2 = x_1(D) + 139;
  return _2;
}

int __GIMPLE (ssa)
f138 (int x)
{
  int _2;

  __BB(2):
  _2 = x_1(D) + 140;
  return _2;
}

int __GIMPLE (ssa)
f139 (int x)
{
  int _2;

  __BB(2):
  _2 = x_1(D) + 141;
  return _2;
}

int __GIMPLE (ssa)
f140 (int x)
{
  int _2;

  __BB(2):
  _2 = x_1(D) + 142;
  return _2;
}

int __GIMPLE (ssa)
f141 (int x)
{
  int _2;

  __BB(2):
  _2 = x_1(D) + 143;
  return _2;
}

int __GIMPLE (ssa)
f142 (int x)
{
  int _2;

  __BB(2):
  _2 = x_1(D) + 144;
  return _2;
}

int __GIMPLE (ssa)
f143 (int x)
{
  int _2;

  __BB(2):
  _2 = x_1(D) + 145;
  return _2;
}

int __GIMPLE (ssa)
f144 (int x)
{
  int _2;

  __BB(2):
  _2 = x_1(D) + 146;
  return _2;
}

int __GIMPLE (ssa)
f145 (int x)
{
  int _2;

  __BB(2):
  _2 = x_1(D) + 147;
  return _2;
}

int __GIMPLE (ssa)
f146 (int x)
{
  int _2;

  __BB(2):
  _2 = x_1(D) + 148;
  return _2;
}

int __GIMPLE (ssa)
f147 (int x)
{
  int _2;

  __BB(2):
  _2 = x_1(D) + 149;
  return _2;
}

int __GIMPLE (ssa)
f148 (int x)
{
  int _2;

  __BB(2):
  _2 = x_1(D) + 150;
  return _2;
}

int __GIMPLE (ssa)
f149 (int x)
{
  int _2;

  __BB(2):
  _2 = x_1(D) + 151;
  return _2;
}

int __GIMPLE (ssa)
f150 (int x)
{
  int _2;

  __BB(2):
  _2 = x_1(D) + 152;
  return _2;
}

int __GIMPLE (ssa)
f151 (int x)
{
  int _2;

  __BB(2):
  _2 = x_1(D) + 153;
  return _2;
}

int __GIMPLE (ssa)
f152 (int x)
{
  int _2;

  __BB(2):
  _2 = x_1(D) + 154;
  return _2;
}

int __GIMPLE (ssa)
f153 (int x)
{
  int _2;

  __BB(2):
  _2 = x_1(D) + 155;
  return _2;
}

int __GIMPLE (ssa)
f154 (int x)
{
  int _2;

  __BB(2):
  _2 = x_1(D) + 156;
  return _2;
}

int __GIMPLE (ssa)
f155 (int x)
{
  int _2;

  __BB(2):
  _2 = x_1(D) + 157;
  return _2;
}

int __GIMPLE (ssa)
f156 (int x)
{
  int _2;

  __BB(2):
  _2 = x_1(D) + 158;
  return _2;
}

int __GIMPLE (ssa)
f157 (int x)
{
  int _2;

  __BB(2):
  _2 = x_1(D) + 159;
  return _2;
}

int __GIMPLE (ssa)
f158 (int x)
{
  int _2;

  __BB(2):
  _2 = x_1(D) + 160;
  return _2;
}

int __GIMPLE (ssa)
f159 (int x)
{
  int _2;

  __BB(2):
  _2 = x_1(D) + 161;
  return _2;
}

int __GIMPLE (ssa)
f160 (int x)
{
  int _2;

  __BB(2):
  _2 = x_1(D) + 162;
  return _2;
}

int __GIMPLE (ssa)
f161 (int x)
{
  int _2;

  __BB(2):
  _2 = x_1(D) + 163;
  return _2;
}

int __GIMPLE (ssa)
f162 (int x)
{
  int _2;

  __BB(2):
  _2 = x_1(D) + 164;
  return _2;
}

int __GIMPLE (ssa)
f163 (int x)
{
  int _2;

  __BB(2):
  _2 = x_1(D) + 165;
  return _2;
}

int __GIMPLE (ssa)
f164 (int x)
{
  int _2;

  __BB(2):
  _2 = x_1(D) + 166;
  return _2;
}

int __GIMPLE (ssa)
f165 (int x)
{
  int _2;

  __BB(2):
  _2 = x_1(D) + 167;
  return _2;
}

int __GIMPLE (ssa)
f166 (int x)
{
  int _2;

  __BB(2):
  _2 = x_1(D) + 168;
  return _2;
}

int __GIMPLE (ssa)
f167 (int x)
{
  int _2;

  __BB(2):
  _2 = x_1(D) + 169;
  return _2;
}

int __GIMPLE (ssa)
f168 (int x)
{
  int _2;

  __BB(2):
  _2 = x_1(D) + 170;
  return _2;
}

int __GIMPLE (ssa)
f169 (int x)
{
  int _2;

  __BB(2):
  _2 = x_1(D) + 171;
  return _2;
}

int __GIMPLE (ssa)
f170 (int x)
{
  int _2;

  __BB(2):
  _2 = x_1(D) + 172;
  return _2;
}

int __GIMPLE (ssa)
f171 (int x)
{
  int _2;

  __BB(2):
  _2 = x_1(D) + 173;
  return _2;
}

int __GIMPLE (ssa)
f172 (int x)
{
  int _2;

  __BB(2):
  _2 = x_1(D) + 174;
  return _2;
}

int __GIMPLE (ssa)
f173 (int x)
{
  int _2;

  __BB(2):
  _2 = x_1(D) + 175;
  return _2;
}

int __GIMPLE (ssa)
f174 (int x)
{
  int _2;

  __BB(2):
  _2 = x_1(D) + 176;
  return _2;
}

int __GIMPLE (ssa)
f175 (int x)
{
  int _2;

  __BB(2):
  _2 = x_1(D) + 177;
  return _2;
}

int __GIMPLE (ssa)
f176 (int x)
{
  int _2;

  __BB(2):
  _2 = x_1(D) + 178;
  return _2;
}

int __GIMPLE (ssa)
f177 (int x)
{
  int _2;

  __BB(2):
  _2 = x_1(D) + 179;
  return _2;
}

int __GIMPLE (ssa)
f178 (int x)
{
  int _2;

  __BB(2):
  _2 = x_1(D) + 180;
  return _2;
}

int __GIMPLE (ssa)
f179 (int x)
{
  int _2;

  __BB(2):
  _2 = x_1(D) + 181;
  return _2;
}

int __GIMPLE (ssa)
f180 (int x)
{
  int _2;

  __BB(2):
  _2 = x_1(D) + 182;
  return _2;
}

int __GIMPLE (ssa)
f181 (int x)
{
  int _2;

  __BB(2):
  _2 = x_1(D) + 183;
  return _2;
}

int __GIMPLE (ssa)
f182 (int x)
{
  int _2;

  __BB(2):
  _2 = x_1(D) + 184;
  return _2;
}

int __GIMPLE (ssa)
f183 (int x)
{
  int _2;

  __BB(2):
  _2 = x_1(D) + 185;
  return _2;
}

int __GIMPLE (ssa)
f184 (int x)
{
  int _2;

  __BB(2):
  _2 = x_1(D) + 186;
  return _2;
}

int __GIMPLE (ssa)
f185 (int x)
{
  int _2;

  __BB(2):
  _2 = x_1(D) + 187;
  return _2;
}

int __GIMPLE (ssa)
f186 (int x)
{
  int _2;

  __BB(2):
  _2 = x_1(D) + 188;
  return _2;
}

int __GIMPLE (ssa)
f187 (int x)
{
  int _2;

  __BB(2):
  _2 = x_1(D) + 189;
  return _2;
}

int __GIMPLE (ssa)
f188 (int x)
{
  int _2;

  __BB(2):
  _2 = x_1(D) + 190;
  return _2;
}

int __GIMPLE (ssa)
f189 (int x)
{
  int _2;

  __BB(2):
  _2 = x_1(D) + 191;
  return _2;
}

int __GIMPLE (ssa)
f190 (int x)
{
  int _2;

  __BB(2):
  _2 = x_1(D) + 192;
  return _2;
}

int __GIMPLE (ssa)
f191 (int x)
{
  int _2;

  __BB(2):
  _2 = x_1(D) + 193;
  return _2;
}

int __GIMPLE (ssa)
f192 (int x)
{
  int _2;

  __BB(2):
  _2 = x_1(D) + 194;
  return _2;
}

int __GIMPLE (ssa)
f193 (int x)
{
  int _2;

  __BB(2):
  _2 = x_1(D) + 195;
  return _2;
}

int __GIMPLE (ssa)
f194 (int x)
{
  int _2;

  __BB(2):
  _2 = x_1(D) + 196;
  return _2;
}

int __GIMPLE (ssa)
f195 (int x)
{
  int _2;

  __BB(2):
  _2 = x_1(D) + 197;
  return _2;
}

int __GIMPLE (ssa)
f196 (int x)
{
  int _2;

  __BB(2):
  _2 = x_1(D) + 198;
  return _2;
}

int __GIMPLE (ssa)
f197 (int x)
{
  int _2;

  __BB(2):
  _2 = x_1(D) + 199;
  return _2;
}

int __GIMPLE (ssa)
f198 (int x)
{
  int _2;

  __BB(2):
  _2 = x_1(D) + 200;
  return _2;
}

int __GIMPLE (ssa)
f199 (int x)
{
  int _2;

  __BB(2):
  _2 = x_1(D) + 201;
  return _2;
}

int __GIMPLE (ssa)
f200 (int x)
{
  int _2;

  __BB(2):
  _2 = x_1(D) + 202;
  return _2;
}

int __GIMPLE (ssa)
f201 (int x)
{
  int _2;

  __BB(2):
  _2 = x_1(D) + 203;
  return _2;
}

int __GIMPLE (ssa)
f202 (int x)
{
  int _2;

  __BB(2):
  _2 = x_1(D) + 204;
  return _2;
}

int __GIMPLE (ssa)
f203 (int x)
{
  int _2;

  __BB(2):
  _2 = x_1(D) + 205;
  return _2;
}

int __GIMPLE (ssa)
f204 (int x)
{
  int _2;

  __BB(2):
  _2 = x_1(D) + 206;
  return _2;
}

int __GIMPLE (ssa)
f205 (int x)
{
  int _2;

  __BB(2):
  _2 = x_1(D) + 207;
  return _2;
}

int __GIMPLE (ssa)
f206 (int x)
{
  int _2;

  __BB(2):
  _2 = x_1(D) + 208;
  return _2;
}

int __GIMPLE (ssa)
f207 (int x)
{
  int _2;

  __BB(2):
  _2 = x_1(D) + 209;
  return _2;
}

int __GIMPLE (ssa)
f208 (int x)
{
  int _2;

  __BB(2):
  _2 = x_1(D) + 210;
  return _2;
}

int __GIMPLE (ssa)
f209 (int x)
{
  int _2;

  __BB(2):
  _2 = x_1(D) + 211;
  return _2;
}

int __GIMPLE (ssa)
f210 (int x)
{
  int _2;

  __BB(2):
  _2 = x_1(D) + 212;
  return _2;
}

int __GIMPLE (ssa)
f211 (int x)
{
  int _2;

  __BB(2):
  _2 = x_1(D) + 213;
  return _2;
}

int __GIMPLE (ssa)
f212 (int x)
{
  int _2;

  __BB(2):
  _2 = x_1(D) + 214;
  return _2;
}

int __GIMPLE (ssa)
f213 (int x)
{
  int _2;

  __BB(2):
  _2 = x_1(D) + 215;
  return _2;
}

int __GIMPLE (ssa)
f214 (int x)
{
  int _2;

  __BB(2):
  _2 = x_1(D) + 216;
  return _2;
}

int __GIMPLE (ssa)
f215 (int x)
{
  int _2;

  __BB(2):
  _2 = x_1(D) + 217;
  return _2;
}

int __GIMPLE (ssa)
f216 (int x)
{
  int _2;

  __BB(2):
  _2 = x_1(D) + 218;
  return _2;
}

int __GIMPLE (ssa)
f217 (int x)
{
  int _2;

  __BB(2):
  _2 = x_1(D) + 219;
  return _2;
}

int __GIMPLE (ssa)
f218 (int x)
{
  int _2;

  __BB(2):
  _2 = x_1(D) + 220;
  return _2;
}

int __GIMPLE (ssa)
f219 (int x)
{
  int _2;

  __BB(2):
  _2 = x_1(D) + 221;
  return _2;
}

int __GIMPLE (ssa)
f220 (int x)
{
  int _2;

  __BB(2):
  _2 = x_1(D) + 222;
  return _2;
}

int __GIMPLE (ssa)
f221 (int x)
{
  int _2;

  __BB(2):
  _2 = x_1(D) + 223;
  return _2;
}

int __GIMPLE (ssa)
f222 (int x)
{
  int _2;

  __BB(2):
  _2 = x_1(D) + 224;
  return _2;
}

int __GIMPLE (ssa)
f223 (int x)
{
  int _2;

  __BB(2):
  _2 = x_1(D) + 225;
  return _2;
}

int __GIMPLE (ssa)
f224 (int x)
{
  int _2;

  __BB(2):
  _2 = x_1(D) + 226;
  return _2;
}

int __GIMPLE (ssa)
f225 (int x)
{
  int _2;

  __BB(2):
  _2 = x_1(D) + 227;
  return _2;
}

int __GIMPLE (ssa)
f226 (int x)
{
  int _2;

  __BB(2):
  _2 = x_1(D) + 228;
  return _2;
}

int __GIMPLE (ssa)
f227 (int x)
{
  int _2;

  __BB(2):
  _2 = x_1(D) + 229;
  return _2;
}

int __GIMPLE (ssa)
f228 (int x)
{
  int _2;

  __BB(2):
  _2 = x_1(D) + 230;
  return _2;
}

int __GIMPLE (ssa)
f229 (int x)
{
  int _2;

  __BB(2):
  _2 = x_1(D) + 231;
  return _2;
}

int __GIMPLE (ssa)
f230 (int x)
{
  int _2;

  __BB(2):
  _2 = x_1(D) + 232;
  return _2;
}

int __GIMPLE (ssa)
f231 (int x)
{
  int _2;

  __BB(2):
  _2 = x_1(D) + 233;
  return _2;
}

int __GIMPLE (ssa)
f232 (int x)
{
  int _2;

  __BB(2):
  _2 = x_1(D) + 234;
  return _2;
}

int __GIMPLE (ssa)
f233 (int x)
{
  int _2;

  __BB(2):
  _2 = x_1(D) + 235;
  return _2;
}

int __GIMPLE (ssa)
f234 (int x)
{
  int _2;

  __BB(2):
  _2 = x_1(D) + 236;
  return _2;
}

int __GIMPLE (ssa)
f235 (int x)
{
  int _2;

  __BB(2):
  _2 = x_1(D) + 237;
  return _2;
}

int __GIMPLE (ssa)
f236 (int x)
{
  int _2;

  __BB(2):
  _2 = x_1(D) + 238;
  return _2;
}

int __GIMPLE (ssa)
f237 (int x)
{
  int _2;

  __BB(2):
  _2 = x_1(D) + 239;
  return _2;
}

int __GIMPLE (ssa)
f238 (int x)
{
  int _2;

  __BB(2):
  _2 = x_1(D) + 240;
  return _2;
}

int __GIMPLE (ssa)
f239 (int x)
{
  int _2;

  __BB(2):
  _2 = x_1(D) + 241;
  return _2;
}

int __GIMPLE (ssa)
f240 (int x)
{
  int _2;

  __BB(2):
  _2 = x_1(D) + 242;
  return _2;
}

int __GIMPLE (ssa)
f241 (int x)
{
  int _2;

  __BB(2):
  _2 = x_1(D) + 243;
  return _2;
}

int __GIMPLE (ssa)
f242 (int x)
{
  int _2;

  __BB(2):
  _2 = x_1(D) + 244;
  return _2;
}

int __GIMPLE (ssa)
f243 (int x)
{
  int _2;

  __BB(2):
  _2 = x_1(D) + 245;
  return _2;
}

int __GIMPLE (ssa)
f244 (int x)
{
  int _2;

  __BB(2):
  _2 = x_1(D) + 246;
  return _2;
}

int __GIMPLE (ssa)
f245 (int x)
{
  int _2;

  __BB(2):
  _2 = x_1(D) + 247;
  return _2;
}

int __GIMPLE (ssa)
f246 (int x)
{
  int _2;

  __BB(2):
  _2 = x_1(D) + 248;
  return _2;
}

int __GIMPLE (ssa)
f247 (int x)
{
  int _2;

  __BB(2):
  _2 = x_1(D) + 249;
  return _2;
}

int __GIMPLE (ssa)
f248 (int x)
{
  int _2;

  __BB(2):
  _2 = x_1(D) + 250;
  return _2;
}

int __GIMPLE (ssa)
f249 (int x)
{
  int _2;

  __BB(2):
  _2 = x_1(D) + 251;
  return _2;
}

int __GIMPLE (ssa)
f250 (int x)
{
  int _2;

  __BB(2):
  _2 = x_1(D) + 252;
  return _2;
}

int __GIMPLE (ssa)
f251 (int x)
{
  int _2;

  __BB(2):
  _2 = x_1(D) + 253;
  return _2;
}

int __GIMPLE (ssa)
f252 (int x)
{
  int _2;

  __BB(2):
  _2 = x_1(D) + 254;
  return _2;
}

int __GIMPLE (ssa)
f253 (int x)
{
  int _2;

  __BB(2):
  _2 = x_1(D) + 255;
  return _2;
}

int __GIMPLE (ssa)
f254 (int x)
{
  int _2;

  __BB(2):
  _2 = x_1(D) + 256;
  return _2;
}

int __GIMPLE (ssa)
f255 (int x)
{
  int _2;

  __BB(2):
  _2 = x_1(D) + 257;
  return _2;
}

int __GIMPLE (ssa)
f256 (int x)
{
  int _2;

  __BB(2):
  _2 = x_1(D) + 258;
  return _2;
}

int __GIMPLE (ssa)
f257 (int x)
{
  int _2;

  __BB(2):
  _2 = x_1(D) + 259;
  return _2;
}

int __GIMPLE (ssa)
f258 (int x)
{
  int _2;

  __BB(2):
  _2 = x_1(D) + 260;
  return _2;
}

int __GIMPLE (ssa)
f259 (int x)
{
  int _2;

  __BB(2):
  _2 = x_1(D) + 261;
  return _2;
}

int __GIMPLE (ssa)
f260 (int x)
{
  int _2;

  __BB(2):
  _2 = x_1(D) + 262;
  return _2;
}

int __GIMPLE (ssa)
f261 (int x)
{
  int _2;

  __BB(2):
  _2 = x_1(D) + 263;
  return _2;
}

int __GIMPLE (ssa)
f262 (int x)
{
  int _2;

  __BB(2):
  _2 = x_1(D) + 264;
  return _2;
}

int __GIMPLE (ssa)
f263 (int x)
{
  int _2;

  __BB(2):
  _2 = x_1(D) + 265;
  return _2;
}

int __GIMPLE (ssa)
f264 (int x)
{
  int _2;

  __BB(2):
  _2 = x_1(D) + 266;
  return _2;
}

int __GIMPLE (ssa)
f265 (int x)
{
  int _2;

  __BB(2):
  _2 = x_1(D) + 267;
  return _2;
}

int __GIMPLE (ssa)
f266 (int x)
{
  int _2;

  __BB(2):
  _2 = x_1(D) + 268;
  return _2;
}

int __GIMPLE (ssa)
f267 (int x)
{
  int _2;

  __BB(2):
  _2 = x_1(D) + 269;
  return _2;
}

int __GIMPLE (ssa)
f268 (int x)
{
  int _2;

  __BB(2):
  _2 = x_1(D) + 270;
  return _2;
}

int __GIMPLE (ssa)
f269 (int x)
{
  int _2;

  __BB(2):
  _2 = x_1(D) + 271;
  return _2;
}

int __GIMPLE (ssa)
f270 (int x)
{
  int _2;

  __BB(2):
  _2 = x_1(D) + 272;
  return _2;
}

int __GIMPLE (ssa)
f271 (int x)
{
  int _2;

  __BB(2):
  _2 = x_1(D) + 273;
  return _2;
}

int __GIMPLE (ssa)
f272 (int x)
{
  int _2;

  __BB(2):
  _2 = x_1(D) + 274;
  return _2;
}

int __GIMPLE (ssa)
f273 (int x)
{
  int _2;

  __BB(2):
  _2 = x_1(D) + 275;
  return _2;
}

int __GIMPLE (ssa)
f274 (int x)
{
  int _2;

  __BB(2):
  _2 = x_1(D) + 276;
  return _2;
}

int __GIMPLE (ssa)
f275 (int x)
{
  int _2;

  __BB(2):
  _2 = x_1(D) + 277;
  return _2;
}

int __GIMPLE (ssa)
f276 (int x)
{
  int _2;

  __BB(2):
  _2 = x_1(D) + 278;
  return _2;
}

int __GIMPLE (ssa)
f277 (int x)
{
  int _2;

  __BB(2):
  _2 = x_1(D) + 279;
  return _2;
}

int __GIMPLE (ssa)
f278 (int x)
{
  int _2;

  __BB(2):
  _2 = x_1(D) + 280;
  return _2;
}

int __GIMPLE (ssa)
f279 (int x)
{
  int _2;

  __BB(2):
  _2 = x_1(D) + 281;
  return _2;
}

int __GIMPLE (ssa)
f280 (int x)
{
  int _2;

  __BB(2):
  _2 = x_1(D) + 282;
  return _2;
}

int __GIMPLE (ssa)
f281 (int x)
{
  int _2;

  __BB(2):
  _2 = x_1(D) + 283;
  return _2;
}

int __GIMPLE (ssa)
f282 (int x)
{
  int _2;

  __BB(2):
  _2 = x_1(D) + 284;
  return _2;
}

int __GIMPLE (ssa)
f283 (int x)
{
  int _2;

  __BB(2):
  _2 = x_1(D) + 285;
  return _2;
}

int __GIMPLE (ssa)
f284 (int x)
{
  int _2;

  __BB(2):
  _2 = x_1(D) + 286;
  return _2;
}

int __GIMPLE (ssa)
f285 (int x)
{
  int _2;

  __BB(2):
  _2 = x_1(D) + 287;
  return _2;
}

int __GIMPLE (ssa)
f286 (int x)
{
  int _2;

  __BB(2):
  _2 = x_1(D) + 288;
  return _2;
}

int __GIMPLE (ssa)
f287 (int x)
{
  int _2;

  __BB(2):
  _2 = x_1(D) + 289;
  return _2;
}

int __GIMPLE (ssa)
f288 (int x)
{
  int _2;

  __BB(2):
  _2 = x_1(D) + 290;
  return _2;
}

int __GIMPLE (ssa)
f289 (int x)
{
  int _2;

  __BB(2):
  _2 = x_1(D) + 291;
  return _2;
}

int __GIMPLE (ssa)
f290 (int x)
{
  int _2;

  __BB(2):
  _2 = x_1(D) + 292;
  return _2;
}

int __GIMPLE (ssa)
f291 (int x)
{
  int _2;

  __BB(2):
  _2 = x_1(D) + 293;
  return _2;
}

int __GIMPLE (ssa)
f292 (int x)
{
  int _2;

  __BB(2):
  _2 = x_1(D) + 294;
  return _2;
}

int __GIMPLE (ssa)
f293 (int x)
{
  int _2;

  __BB(2):
  _2 = x_1(D) + 295;
  return _2;
}

int __GIMPLE (ssa)
f294 (int x)
{
  int _2;

  __BB(2):
  _2 = x_1(D) + 296;
  return _2;
}

int __GIMPLE (ssa)
f295 (int x)
{
  int _2;

  __BB(2):
  _2 = x_1(D) + 297;
  return _2;
}

int __GIMPLE (ssa)
f296 (int x)
{
  int _2;

  __BB(2):
  _2 = x_1(D) + 298;
  return _2;
}

int __GIMPLE (ssa)
f297 (int x)
{
  int _2;

  __BB(2):
  _2 = x_1(D) + 299;
  return _2;
}

int __GIMPLE (ssa)
f298 (int x)
{
  int _2;

  __BB(2):
  _2 = x_1(D) + 300;
  return _2;
}

int __GIMPLE (ssa)
f299 (int x)
{
  int _2;

  __BB(2):
  _2 = x_1(D) + 301;
  return _2;
}

int __GIMPLE (ssa)
f300 (int x)
{
  int _2;

  __BB(2):
  _2 = x_1(D) + 302;
  return _2;
}

int __GIMPLE (ssa)
f301 (int x)
{
  int _2;

  __BB(2):
  _2 = x_1(D) + 303;
  return _2;
}

int __GIMPLE (ssa)
f302 (int x)
{
  int _2;

  __BB(2):
  _2 = x_1(D) + 304;
  return _2;
}

int __GIMPLE (ssa)
f303 (int x)
{
  int _2;

  __BB(2):
  _2 = x_1(D) + 305;
  return _2;
}

int __GIMPLE (ssa)
f304 (int x)
{
  int _2;

  __BB(2):
  _2 = x_1(D) + 306;
  return _2;
}

int __GIMPLE (ssa)
f305 (int x)
{
  int _2;

  __BB(2):
  _2 = x_1(D) + 307;
  return _2;
}

int __GIMPLE (ssa)
f306 (int x)
{
  int _2;

  __BB(2):
  _2 = x_1(D) + 308;
  return _2;
}

int __GIMPLE (ssa)
f307 (int x)
{
  int _2;

  __BB(2):
  _2 = x_1(D) + 309;
  return _2;
}

int __GIMPLE (ssa)
f308 (int x)
{
  int _2;

  __BB(2):
  _2 = x_1(D) + 310;
  return _2;
}

int __GIMPLE (ssa)
f309 (int x)
{
  int _2;

  __BB(2):
  _2 = x_1(D) + 311;
  return _2;
}

int __GIMPLE (ssa)
f310 (int x)
{
  int _2;

  __BB(2):
  _2 = x_1(D) + 312;
  return _2;
}

int __GIMPLE (ssa)
f311 (int x)
{
  int _2;

  __BB(2):
  _2 = x_1(D) + 313;
  return _2;
}

int __GIMPLE (ssa)
f312 (int x)
{
  int _2;

  __BB(2):
  _2 = x_1(D) + 314;
  return _2;
}

int __GIMPLE (ssa)
f313 (int x)
{
  int _2;

  __BB(2):
  _2 = x_1(D) + 315;
  return _2;
}

int __GIMPLE (ssa)
f314 (int x)
{
  int _2;

  __BB(2):
  _2 = x_1(D) + 316;
  return _2;
}

int __GIMPLE (ssa)
f315 (int x)
{
  int _2;

  __BB(2):
  _2 = x_1(D) + 317;
  return _2;
}

int __GIMPLE (ssa)
f316 (int x)
{
  int _2;

  __BB(2):
  _2 = x_1(D) + 318;
  return _2;
}

int __GIMPLE (ssa)
f317 (int x)
{
  int _2;

  __BB(2):
  _2 = x_1(D) + 319;
  return _2;
}

int __GIMPLE (ssa)
f318 (int x)
{
  int _2;

  __BB(2):
  _2 = x_1(D) + 320;
  return _2;
}

int __GIMPLE (ssa)
f319 (int x)
{
  int _2;

  __BB(2):
  _2 = x_1(D) + 321;
  return _2;
}

int __GIMPLE (ssa)
f320 (int x)
{
  int _2;

  __BB(2):
  _2 = x_1(D) + 322;
  return _2;
}

int __GIMPLE (ssa)
f321 (int x)
{
  int _2;

  __BB(2):
  _2 = x_1(D) + 323;
  return _2;
}

int __GIMPLE (ssa)
f322 (int x)
{
  int _2;

  __BB(2):
  _2 = x_1(D) + 324;
  return _2;
}

int __GIMPLE (ssa)
f323 (int x)
{
  int _2;

  __BB(2):
  _2 = x_1(D) + 325;
  return _2;
}

int __GIMPLE (ssa)
f324 (int x)
{
  int _2;

  __BB(2):
  _2 = x_1(D) + 326;
  return _2;
}

int __GIMPLE (ssa)
f325 (int x)
{
  int _2;

  __BB(2):
  _2 = x_1(D) + 327;
  return _2;
}

int __GIMPLE (ssa)
f326 (int x)
{
  int _2;

  __BB(2):
  _2 = x_1(D) + 328;
  return _2;
}

int __GIMPLE (ssa)
f327 (int x)
{
  int _2;

  __BB(2):
  _2 = x_1(D) + 329;
  return _2;
}

int __GIMPLE (ssa)
f328 (int x)
{
  int _2;

  __BB(2):
  _2 = x_1(D) + 330;
  return _2;
}

int __GIMPLE (ssa)
f329 (int x)
{
  int _2;

  __BB(2):
  _2 = x_1(D) + 331;
  return _2;
}

int __GIMPLE (ssa)
f330 (int x)
{
  int _2;

  __BB(2):
  _2 = x_1(D) + 332;
  return _2;
}

int __GIMPLE (ssa)
f331 (int x)
{
  int _2;

  __BB(2):
  _2 = x_1(D) + 333;
  return _2;
}

int __GIMPLE (ssa)
f332 (int x)
{
  int _2;

  __BB(2):
  _2 = x_1(D) + 334;
  return _2;
}

int __GIMPLE (ssa)
f333 (int x)
{
  int _2;

  __BB(2):
  _2 = x_1(D) + 335;
  return _2;
}

int __GIMPLE (ssa)
f334 (int x)
{
  int _2;

  __BB(2):
  _2 = x_1(D) + 336;
  return _2;
}

int __GIMPLE (ssa)
f335 (int x)
{
  int _2;

  __BB(2):
  _2 = x_1(D) + 337;
  return _2;
}

int __GIMPLE (ssa)
f336 (int x)
{
  int _2;

  __BB(2):
  _2 = x_1(D) + 338;
  return _2;
}

int __GIMPLE (ssa)
f337 (int x)
{
  int _2;

  __BB(2):
  _2 = x_1(D) + 339;
  return _2;
}

int __GIMPLE (ssa)
f338 (int x)
{
  int _2;

  __BB(2):
  _2 = x_1(D) + 340;
  return _2;
}

int __GIMPLE (ssa)
f339 (int x)
{
  int _2;

  __BB(2):
  _2 = x_1(D) + 341;
  return _2;
}

int __GIMPLE (ssa)
f340 (int x)
{
  int _2;

  __BB(2):
  _2 = x_1(D) + 342;
  return _2;
}

int __GIMPLE (ssa)
f341 (int x)
{
  int _2;

  __BB(2):
  _2 = x_1(D) + 343;
  return _2;
}

int __GIMPLE (ssa)
f342 (int x)
{
  int _2;

  __BB(2):
  _2 = x_1(D) + 344;
  return _2;
}

int __GIMPLE (ssa)
f343 (int x)
{
  int _2;

  __BB(2):
  _2 = x_1(D) + 345;
  return _2;
}

int __GIMPLE (ssa)
f344 (int x)
{
  int _2;

  __BB(2):
  _2 = x_1(D) + 346;
  return _2;
}

int __GIMPLE (ssa)
f345 (int x)
{
  int _2;

  __BB(2):
  _2 = x_1(D) + 347;
  return _2;
}

int __GIMPLE (ssa)
f346 (int x)
{
  int _2;

  __BB(2):
  _2 = x_1(D) + 348;
  return _2;
}

int __GIMPLE (ssa)
f347 (int x)
{
  int _2;

  __BB(2):
  _2 = x_1(D) + 349;
  return _2;
}

int __GIMPLE (ssa)
f348 (int x)
{
  int _2;

  __BB(2):
  _2 = x_1(D) + 350;
  return _2;
}

int __GIMPLE (ssa)
f349 (int x)
{
  int _2;

  __BB(2):
  _2 = x_1(D) + 351;
  return _2;
}

int __GIMPLE (ssa)
f350 (int x)
{
  int _2;

  __BB(2):
  _2 = x_1(D) + 352;
  return _2;
}

int __GIMPLE (ssa)
f351 (int x)
{
  int _2;

  __BB(2):
  _2 = x_1(D) + 353;
  return _2;
}

int __GIMPLE (ssa)
f352 (int x)
{
  int _2;

  __BB(2):
  _2 = x_1(D) + 354;
  return _2;
}

int __GIMPLE (ssa)
f353 (int x)
{
  int _2;

  __BB(2):
  _2 = x_1(D) + 355;
  return _2;
}

int __GIMPLE (ssa)
f354 (int x)
{
  int _2;

  __BB(2):
  _2 = x_1(D) + 356;
  return _2;
}

int __GIMPLE (ssa)
f355 (int x)
{
  int _2;

  __BB(2):
  _2 = x_1(D) + 357;
  return _2;
}

int __GIMPLE (ssa)
f356 (int x)
{
  int _2;

  __BB(2):
  _2 = x_1(D) + 358;
  return _2;
}

int __GIMPLE (ssa)
f357 (int x)
{
  int _2;

  __BB(2):
  _2 = x_1(D) + 359;
  return _2;
}

int __GIMPLE (ssa)
f358 (int x)
{
  int _2;

  __BB(2):
  _2 = x_1(D) + 360;
  return _2;
}

int __GIMPLE (ssa)
f359 (int x)
{
  int _2;

  __BB(2):
  _2 = x_1(D) + 361;
  return _2;
}

int __GIMPLE (ssa)
f360 (int x)
{
  int _2;

  __BB(2):
  _2 = x_1(D) + 362;
  return _2;
}

int __GIMPLE (ssa)
f361 (int x)
{
  int _2;

  __BB(2):
  _2 = x_1(D) + 363;
  return _2;
}

int __GIMPLE (ssa)
f362 (int x)
{
  int _2;

  __BB(2):
  _2 = x_1(D) + 364;
  return _2;
}

int __GIMPLE (ssa)
f363 (int x)
{
  int _2;

  __BB(2):
  _2 = x_1(D) + 365;
  return _2;
}

int __GIMPLE (ssa)
f364 (int x)
{
  int _2;

  __BB(2):
  _2 = x_1(D) + 366;
  return _2;
}

int __GIMPLE (ssa)
f365 (int x)
{
  int _2;

  __BB(2):
  _2 = x_1(D) + 367;
  return _2;
}

int __GIMPLE (ssa)
f366 (int x)
{
  int _2;

  __BB(2):
  _2 = x_1(D) + 368;
  return _2;
}

int __GIMPLE (ssa)
f367 (int x)
{
  int _2;

  __BB(2):
  _2 = x_1(D) + 369;
  return _2;
}

int __GIMPLE (ssa)
f368 (int x)
{
  int _2;

  __BB(2):
  _2 = x_1(D) + 370;
  return _2;
}

int __GIMPLE (ssa)
f369 (int x)
{
  int _2;

  __BB(2):
  _2 = x_1(D) + 371;
  return _2;
}

int __GIMPLE (ssa)
f370 (int x)
{
  int _2;

  __BB(2):
  _2 = x_1(D) + 372;
  return _2;
}

int __GIMPLE (ssa)
f371 (int x)
{
  int _2;

  __BB(2):
  _2 = x_1(D) + 373;
  return _2;
}

int __GIMPLE (ssa)
f372 (int x)
{
  int _2;

  __BB(2):
  _2 = x_1(D) + 374;
  return _2;
}

int __GIMPLE (ssa)
f373 (int x)
{
  int _2;

  __BB(2):
  _2 = x_1(D) + 375;
  return _2;
}

int __GIMPLE (ssa)
f374 (int x)
{
  int _2;

  __BB(2):
  _2 = x_1(D) + 376;
  return _2;
}

int __GIMPLE (ssa)
f375 (int x)
{
  int _2;

  __BB(2):
  _2 = x_1(D) + 377;
  return _2;
}

int __GIMPLE (ssa)
f376 (int x)
{
  int _2;

  __BB(2):
  _2 = x_1(D) + 378;
  return _2;
}

int __GIMPLE (ssa)
f377 (int x)
{
  int _2;

  __BB(2):
  _2 = x_1(D) + 379;
  return _2;
}

int __GIMPLE (ssa)
f378 (int x)
{
  int _2;

  __BB(2):
  _2 = x_1(D) + 380;
  return _2;
}

int __GIMPLE (ssa)
f379 (int x)
{
  int _2;

  __BB(2):
  _2 = x_1(D) + 381;
  return _2;
}

int __GIMPLE (ssa)
f380 (int x)
{
  int _2;

  __BB(2):
  _2 = x_1(D) + 382;
  return _2;
}

int __GIMPLE (ssa)
f381 (int x)
{
  int _2;

  __BB(2):
  _2 = x_1(D) + 383;
  return _2;
}

int __GIMPLE (ssa)
f382 (int x)
{
  int _2;

  __BB(2):
  _2 = x_1(D) + 384;
  return _2;
}

int __GIMPLE (ssa)
f383 (int x)
{
  int _2;

  __BB(2):
  _2 = x_1(D) + 385;
  return _2;
}

int __GIMPLE (ssa)
f384 (int x)
{
  int _2;

  __BB(2):
  _2 = x_1(D) + 386;
  return _2;
}

int __GIMPLE (ssa)
f385 (int x)
{
  int _2;

  __BB(2):
  _2 = x_1(D) + 387;
  return _2;
}

int __GIMPLE (ssa)
f386 (int x)
{
  int _2;

  __BB(2):
  _2 = x_1(D) + 388;
  return _2;
}

int __GIMPLE (ssa)
f387 (int x)
{
  int _2;

  __BB(2):
  _2 = x_1(D) + 389;
  return _2;
}

int __GIMPLE (ssa)
f388 (int x)
{
  int _2;

  __BB(2):
  _2 = x_1(D) + 390;
  return _2;
}

int __GIMPLE (ssa)
f389 (int x)
{
  int _2;

  __BB(2):
  _2 = x_1(D) + 391;
  return _2;
}

int __GIMPLE (ssa)
f390 (int x)
{
  int _2;

  __BB(2):
  _2 = x_1(D) + 392;
  return _2;
}

int __GIMPLE (ssa)
f391 (int x)
{
  int _2;

  __BB(2):
  _2 = x_1(D) + 393;
  return _2;
}

int __GIMPLE (ssa)
f392 (int x)
{
  int _2;

  __BB(2):
  _2 = x_1(D) + 394;
  return _2;
}

int __GIMPLE (ssa)
f393 (int x)
{
  int _2;

  __BB(2):
  _2 = x_1(D) + 395;
  return _2;
}

int __GIMPLE (ssa)
f394 (int x)
{
  int _2;

  __BB(2):
  _2 = x_1(D) + 396;
  return _2;
}

int __GIMPLE (ssa)
f395 (int x)
{
  int _2;

  __BB(2):
  _2 = x_1(D) + 397;
  return _2;
}

int __GIMPLE (ssa)
f396 (int x)
{
  int _2;

  __BB(2):
  _2 = x_1(D) + 398;
  return _2;
}

int __GIMPLE (ssa)
f397 (int x)
{
  int _2;

  __BB(2):
  _2 = x_1(D) + 399;
  return _2;
}

int __GIMPLE (ssa)
f398 (int x)
{
  int _2;

  __BB(2):
  _2 = x_1(D) + 400;
  return _2;
}

int __GIMPLE (ssa)
f399 (int x)
{
  int _2;

  __BB(2):
  _2 = x_1(D) + 401;
  return _2;
}
