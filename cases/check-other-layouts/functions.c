int __GIMPLE (ssa) f0 (int x) { __BB(2): return x_1(D); }
long int unsigned __GIMPLE (ssa,guessed_local(1))
f1 (long int unsigned long x) { unsigned _2; __BB(2,freq(5)): _2 = 5U; return x_1(D); }
_Bool __GIMPLE (ssa) f2 () { __BB(0): goto __BB1 (adjust(5)); __BB(1): return _Literal (_Bool) 1; }
signed __GIMPLE (ssa) f3 (void) { int _1; __BB(2): _1 = - _Literal (signed) -2147483648; return _1; } /* one */ int __GIMPLE (ssa) f4 () { __BB(2): return -0; }
char __GIMPLE (ssa) f5 (char x, _Bool b) { char a; char a_2; __BB(2): a_2_7 = b_3(D) ? _Literal (char) 1 : x_1(D); return a_2_7; }
;; nothing but a note
