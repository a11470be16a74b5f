int __GIMPLE (ssa)
f (int x)
{
  int _3;
  int _4;
  int _5;
  int _6;
  int _7;
  int _8;
  int _9;
  int _10;
  int _11;
  int _12;
  int _13;
  int _14;
  int _15;
  int _16;
  int _17;
  int _18;
  int _19;
  int _20;
  int _21;
  int _22;
  int _23;
  int _24;
  int _25;
  int _26;
  int _27;
  int _28;
  int _29;
  int _30;
  int _31;
  int _32;
  int _33;
  int _34;
  int _35;
  int _36;
  int _37;
  int _38;
  int _39;
  int _40;
  int _41;
  int _42;
  int _43;
  int _44;
  int _45;
  int _46;
  int _47;
  int _48;
  int _49;
  int _50;
  int _51;
  int _52;
  int _53;
  int _54;
  int _55;
  int _56;
  int _57;
  int _58;
  int _59;
  int _60;
  int _61;
  int _62;
  int _63;
  int _64;
  int _65;
  int _66;
  int _67;
  int _68;
  int _69;
  int _70;
  int _71;
  int _72;
  int _73;
  int _74;
  int _75;
  int _76;
  int _77;
  int _78;
  int _79;
  int _80;
  int _81;
  int _82;
  int _83;
  int _84;
  int _85;
  int _86;
  int _87;
  int _88;
  int _89;
  int _90;
  int _91;
  int _92;
  int _93;
  int _94;
  int _95;
  int _96;
  int _97;
  int _98;
  int _99;
  int _100;
  int _101;
  int _102;
  int _103;
  int _104;
  int _105;
  int _106;
  int _107;
  int _108;
  int _109;
  int _110;
  int _111;
  int _112;
  int _113;
  int _114;
  int _115;
  int _116;
  int _117;
  int _118;
  int _119;
  int _120;
  int _121;
  int _122;
  int _123;
  int _124;
  int _125;
  int _126;
  int _127;
  int _128;
  int _129;
  int _130;
  int _131;
  int _132;
  int _133;
  int _134;
  int _135;
  int _136;
  int _137;
  int _138;
  int _139;
  int _140;
  int _141;
  int _142;
  int _143;
  int _144;
  int _145;
  int _146;
  int _147;
  int _148;
  int _149;
  int _150;
  int _151;
  int _152;
  int _153;
  int _154;
  int _155;
  int _156;
  int _157;
  int _158;
  int _159;
  int _160;
  int _161;
  int _162;
  int _163;
  int _164;
  int _165;
  int _166;
  int _167;
  int _168;
  int _169;
  int _170;
  int _171;
  int _172;
  int _173;
  int _174;
  int _175;
  int _176;
  int _177;
  int _178;
  int _179;
  int _180;
  int _181;
  int _182;
  int _183;
  int _184;
  int _185;
  int _186;
  int _187;
  int _188;
  int _189;
  int _190;
  int _191;
  int _192;
  int _193;
  int _194;
  int _195;
  int _196;
  int _197;
  int _198;
  int _199;
  int _200;
  int _201;
  int _202;
  int _203;
  int _204;
  int _205;
  int _206;
  int _207;
  int _208;
  int _209;
  int _210;
  int _211;
  int _212;
  int _213;
  int _214;
  int _215;
  int _216;
  int _217;
  int _218;
  int _219;
  int _220;
  int _221;
  int _222;
  int _223;
  int _224;
  int _225;
  int _226;
  int _227;
  int _228;
  int _229;
  int _230;
  int _231;
  int _232;
  int _233;
  int _234;
  int _235;
  int _236;
  int _237;
  int _238;
  int _239;
  int _240;
  int _241;
  int _242;
  int _243;
  int _244;
  int _245;
  int _246;
  int _247;
  int _248;
  int _249;
  int _250;
  int _251;
  int _252;
  int _253;
  int _254;
  int _255;
  int _256;
  int _257;
  int _258;
  int _259;
  int _260;
  int _261;
  int _262;
  int _263;
  int _264;
  int _265;
  int _266;
  int _267;
  int _268;
  int _269;
  int _270;
  int _271;
  int _272;
  int _273;
  int _274;
  int _275;
  int _276;
  int _277;
  int _278;
  int _279;
  int _280;
  int _281;
  int _282;
  int _283;
  int _284;
  int _285;
  int _286;
  int _287;
  int _288;
  int _289;
  int _290;
  int _291;
  int _292;
  int _293;
  int _294;
  int _295;
  int _296;
  int _297;
  int _298;
  int _299;
  int _300;
  int _301;
  int _302;
  int _303;
  int _304;
  int _305;
  int _306;
  int _307;
  int _308;
  int _309;
  int _310;
  int _311;
  int _312;
  int _313;
  int _314;
  int _315;
  int _316;
  int _317;
  int _318;
  int _319;
  int _320;
  int _321;
  int _322;
  int _323;
  int _324;
  int _325;
  int _326;
  int _327;
  int _328;
  int _329;
  int _330;
  int _331;
  int _332;
  int _333;
  int _334;
  int _335;
  int _336;
  int _337;
  int _338;
  int _339;
  int _340;
  int _341;
  int _342;
  int _343;
  int _344;
  int _345;
  int _346;
  int _347;
  int _348;
  int _349;
  int _350;
  int _351;
  int _352;
  int _353;
  int _354;
  int _355;
  int _356;
  int _357;
  int _358;
  int _359;
  int _360;
  int _361;
  int _362;
  int _363;
  int _364;
  int _365;
  int _366;
  int _367;
  int _368;
  int _369;
  int _370;
  int _371;
  int _372;
  int _373;
  int _374;
  int _375;
  int _376;
  int _377;
  int _378;
  int _379;
  int _380;
  int _381;
  int _382;
  int _383;
  int _384;
  int _385;
  int _386;
  int _387;
  int _388;
  int _389;
  int _390;
  int _391;
  int _392;
  int _393;
  int _394;
  int _395;
  int _396;
  int _397;
  int _398;
  int _399;
  int _400;
  int _401;
  int _402;
  int _403;
  int _404;
  int _405;
  int _406;
  int _407;
  int _408;
  int _409;
  int _410;
  int _411;
  int _412;
  int _413;
  int _414;
  int _415;
  int _416;
  int _417;
  int _418;
  int _419;
  int _420;
  int _421;
  int _422;
  int _423;
  int _424;
  int _425;
  int _426;
  int _427;
  int _428;
  int _429;
  int _430;
  int _431;
  int _432;
  int _433;
  int _434;
  int _435;
  int _436;
  int _437;
  int _438;
  int _439;
  int _440;
  int _441;
  int _442;
  int _443;
  int _444;
  int _445;
  int _446;
  int _447;
  int _448;
  int _449;
  int _450;
  int _451;
  int _452;
  int _453;
  int _454;
  int _455;
  int _456;
  int _457;
  int _458;
  int _459;
  int _460;
  int _461;
  int _462;
  int _463;
  int _464;
  int _465;
  int _466;
  int _467;
  int _468;
  int _469;
  int _470;
  int _471;
  int _472;
  int _473;
  int _474;
  int _475;
  int _476;
  int _477;
  int _478;
  int _479;
  int _480;
  int _481;
  int _482;
  int _483;
  int _484;
  int _485;
  int _486;
  int _487;
  int _488;
  int _489;
  int _490;
  int _491;
  int _492;
  int _493;
  int _494;
  int _495;
  int _496;
  int _497;
  int _498;
  int _499;
  int _500;
  int _501;
  int _502;
  int _503;
  int _504;
  int _505;
  int _506;
  int _507;
  int _508;
  int _509;
  int _510;
  int _511;
  int _512;
  int _513;
  int _514;
  int _515;
  int _516;
  int _517;
  int _518;
  int _519;
  int _520;
  int _521;
  int _522;
  int _523;
  int _524;
  int _525;
  int _526;
  int _527;
  int _528;
  int _529;
  int _530;
  int _531;
  int _532;
  int _533;
  int _534;
  int _535;
  int _536;
  int _537;
  int _538;
  int _539;
  int _540;
  int _541;
  int _542;
  int _543;
  int _544;
  int _545;
  int _546;
  int _547;
  int _548;
  int _549;
  int _550;
  int _551;
  int _552;
  int _553;
  int _554;
  int _555;
  int _556;
  int _557;
  int _558;
  int _559;
  int _560;
  int _561;
  int _562;
  int _563;
  int _564;
  int _565;
  int _566;
  int _567;
  int _568;
  int _569;
  int _570;
  int _571;
  int _572;
  int _573;
  int _574;
  int _575;
  int _576;
  int _577;
  int _578;
  int _579;
  int _580;
  int _581;
  int _582;
  int _583;
  int _584;
  int _585;
  int _586;
  int _587;
  int _588;
  int _589;
  int _590;
  int _591;
  int _592;
  int _593;
  int _594;
  int _595;
  int _596;
  int _597;
  int _598;
  int _599;
  int _600;
  int _601;
  int _602;
  int _603;
  int _604;
  int _605;
  int _606;
  int _607;
  int _608;
  int _609;
  int _610;
  int _611;
  int _612;
  int _613;
  int _614;
  int _615;
  int _616;
  int _617;
  int _618;
  int _619;
  int _620;
  int _621;
  int _622;
  int _623;
  int _624;
  int _625;
  int _626;
  int _627;
  int _628;
  int _629;
  int _630;
  int _631;
  int _632;
  int _633;
  int _634;
  int _635;
  int _636;
  int _637;
  int _638;
  int _639;
  int _640;
  int _641;
  int _642;
  int _643;
  int _644;
  int _645;
  int _646;
  int _647;
  int _648;
  int _649;
  int _650;
  int _651;
  int _652;
  int _653;
  int _654;
  int _655;
  int _656;
  int _657;
  int _658;
  int _659;
  int _660;
  int _661;
  int _662;
  int _663;
  int _664;
  int _665;
  int _666;
  int _667;
  int _668;
  int _669;
  int _670;
  int _671;
  int _672;
  int _673;
  int _674;
  int _675;
  int _676;
  int _677;
  int _678;
  int _679;
  int _680;
  int _681;
  int _682;
  int _683;
  int _684;
  int _685;
  int _686;
  int _687;
  int _688;
  int _689;
  int _690;
  int _691;
  int _692;
  int _693;
  int _694;
  int _695;
  int _696;
  int _697;
  int _698;
  int _699;
  int _700;
  int _701;
  int _702;
  int _703;
  int _704;
  int _705;
  int _706;
  int _707;
  int _708;
  int _709;
  int _710;
  int _711;
  int _712;
  int _713;
  int _714;
  int _715;
  int _716;
  int _717;
  int _718;
  int _719;
  int _720;
  int _721;
  int _722;
  int _723;
  int _724;
  int _725;
  int _726;
  int _727;
  int _728;
  int _729;
  int _730;
  int _731;
  int _732;
  int _733;
  int _734;
  int _735;
  int _736;
  int _737;
  int _738;
  int _739;
  int _740;
  int _741;
  int _742;
  int _743;
  int _744;
  int _745;
  int _746;
  int _747;
  int _748;
  int _749;
  int _750;
  int _751;
  int _752;
  int _753;
  int _754;
  int _755;
  int _756;
  int _757;
  int _758;
  int _759;
  int _760;
  int _761;
  int _762;
  int _763;
  int _764;
  int _765;
  int _766;
  int _767;
  int _768;
  int _769;
  int _770;
  int _771;
  int _772;
  int _773;
  int _774;
  int _775;
  int _776;
  int _777;
  int _778;
  int _779;
  int _780;
  int _781;
  int _782;
  int _783;
  int _784;
  int _785;
  int _786;
  int _787;
  int _788;
  int _789;
  int _790;
  int _791;
  int _792;
  int _793;
  int _794;
  int _795;
  int _796;
  int _797;
  int _798;
  int _799;
  int _800;
  int _801;
  int _802;
  int _803;
  int _804;
  int _805;
  int _806;
  int _807;
  int _808;
  int _809;
  int _810;
  int _811;
  int _812;
  int _813;
  int _814;
  int _815;
  int _816;
  int _817;
  int _818;
  int _819;
  int _820;
  int _821;
  int _822;
  int _823;
  int _824;
  int _825;
  int _826;
  int _827;
  int _828;
  int _829;
  int _830;
  int _831;
  int _832;
  int _833;
  int _834;
  int _835;
  int _836;
  int _837;
  int _838;
  int _839;
  int _840;
  int _841;
  int _842;
  int _843;
  int _844;
  int _845;
  int _846;
  int _847;
  int _848;
  int _849;
  int _850;
  int _851;
  int _852;
  int _853;
  int _854;
  int _855;
  int _856;
  int _857;
  int _858;
  int _859;
  int _860;
  int _861;
  int _862;
  int _863;
  int _864;
  int _865;
  int _866;
  int _867;
  int _868;
  int _869;
  int _870;
  int _871;
  int _872;
  int _873;
  int _874;
  int _875;
  int _876;
  int _877;
  int _878;
  int _879;
  int _880;
  int _881;
  int _882;
  int _883;
  int _884;
  int _885;
  int _886;
  int _887;
  int _888;
  int _889;
  int _890;
  int _891;
  int _892;
  int _893;
  int _894;
  int _895;
  int _896;
  int _897;
  int _898;
  int _899;
  int _900;
  int _901;
  int _902;
  int _903;
  int _904;
  int _905;
  int _906;
  int _907;
  int _908;
  int _909;
  int _910;
  int _911;
  int _912;
  int _913;
  int _914;
  int _915;
  int _916;
  int _917;
  int _918;
  int _919;
  int _920;
  int _921;
  int _922;
  int _923;
  int _924;
  int _925;
  int _926;
  int _927;
  int _928;
  int _929;
  int _930;
  int _931;
  int _932;
  int _933;
  int _934;
  int _935;
  int _936;
  int _937;
  int _938;
  int _939;
  int _940;
  int _941;
  int _942;
  int _943;
  int _944;
  int _945;
  int _946;
  int _947;
  int _948;
  int _949;
  int _950;
  int _951;
  int _952;
  int _953;
  int _954;
  int _955;
  int _956;
  int _957;
  int _958;
  int _959;
  int _960;
  int _961;
  int _962;
  int _963;
  int _964;
  int _965;
  int _966;
  int _967;
  int _968;
  int _969;
  int _970;
  int _971;
  int _972;
  int _973;
  int _974;
  int _975;
  int _976;
  int _977;
  int _978;
  int _979;
  int _980;
  int _981;
  int _982;
  int _983;
  int _984;
  int _985;
  int _986;
  int _987;
  int _988;
  int _989;
  int _990;
  int _991;
  int _992;
  int _993;
  int _994;
  int _995;
  int _996;
  int _997;
  int _998;
  int _999;
  int _1000;
  int _1001;
  int _1002;
  int _1003;
  int _1004;
  int _1005;
  int _1006;
  int _1007;
  int _1008;
  int _1009;
  int _1010;
  int _1011;
  int _1012;
  int _1013;
  int _1014;
  int _1015;
  int _1016;
  int _1017;
  int _1018;
  int _1019;
  int _1020;
  int _1021;
  int _1022;
  int _1023;
  int _1024;
  int _1025;
  int _1026;
  int _1027;
  int _1028;
  int _1029;
  int _1030;
  int _1031;
  int _1032;
  int _1033;
  int _1034;
  int _1035;
  int _1036;
  int _1037;
  int _1038;
  int _1039;
  int _1040;
  int _1041;
  int _1042;
  int _1043;
  int _1044;
  int _1045;
  int _1046;
  int _1047;
  int _1048;
  int _1049;
  int _1050;
  int _1051;
  int _1052;
  int _1053;
  int _1054;
  int _1055;
  int _1056;
  int _1057;
  int _1058;
  int _1059;
  int _1060;
  int _1061;
  int _1062;
  int _1063;
  int _1064;
  int _1065;
  int _1066;
  int _1067;
  int _1068;
  int _1069;
  int _1070;
  int _1071;
  int _1072;
  int _1073;
  int _1074;
  int _1075;
  int _1076;
  int _1077;
  int _1078;
  int _1079;
  int _1080;
  int _1081;
  int _1082;
  int _1083;
  int _1084;
  int _1085;
  int _1086;
  int _1087;
  int _1088;
  int _1089;
  int _1090;
  int _1091;
  int _1092;
  int _1093;
  int _1094;
  int _1095;
  int _1096;
  int _1097;
  int _1098;
  int _1099;
  int _1100;
  int _1101;
  int _1102;
  int _1103;
  int _1104;
  int _1105;
  int _1106;
  int _1107;
  int _1108;
  int _1109;
  int _1110;
  int _1111;
  int _1112;
  int _1113;
  int _1114;
  int _1115;
  int _1116;
  int _1117;
  int _1118;
  int _1119;
  int _1120;
  int _1121;
  int _1122;
  int _1123;
  int _1124;
  int _1125;
  int _1126;
  int _1127;
  int _1128;
  int _1129;
  int _1130;
  int _1131;
  int _1132;
  int _1133;
  int _1134;
  int _1135;
  int _1136;
  int _1137;
  int _1138;
  int _1139;
  int _1140;
  int _1141;
  int _1142;
  int _1143;
  int _1144;
  int _1145;
  int _1146;
  int _1147;
  int _1148;
  int _1149;
  int _1150;
  int _1151;
  int _1152;
  int _1153;
  int _1154;
  int _1155;
  int _1156;
  int _1157;
  int _1158;
  int _1159;
  int _1160;
  int _1161;
  int _1162;
  int _1163;
  int _1164;
  int _1165;
  int _1166;
  int _1167;
  int _1168;
  int _1169;
  int _1170;
  int _1171;
  int _1172;
  int _1173;
  int _1174;
  int _1175;
  int _1176;
  int _1177;
  int _1178;
  int _1179;
  int _1180;
  int _1181;
  int _1182;
  int _1183;
  int _1184;
  int _1185;
  int _1186;
  int _1187;
  int _1188;
  int _1189;
  int _1190;
  int _1191;
  int _1192;
  int _1193;
  int _1194;
  int _1195;
  int _1196;
  int _1197;
  int _1198;
  int _1199;
  int _1200;
  int _1201;
  int _1202;
  int _1203;
  int _1204;
  int _1205;
  int _1206;
  int _1207;
  int _1208;
  int _1209;
  int _1210;
  int _1211;
  int _1212;
  int _1213;
  int _1214;
  int _1215;
  int _1216;
  int _1217;
  int _1218;
  int _1219;
  int _1220;
  int _1221;
  int _1222;
  int _1223;
  int _1224;
  int _1225;
  int _1226;
  int _1227;
  int _1228;
  int _1229;
  int _1230;
  int _1231;
  int _1232;
  int _1233;
  int _1234;
  int _1235;
  int _1236;
  int _1237;
  int _1238;
  int _1239;
  int _1240;
  int _1241;
  int _1242;
  int _1243;
  int _1244;
  int _1245;
  int _1246;
  int _1247;
  int _1248;
  int _1249;
  int _1250;
  int _1251;
  int _1252;
  int _1253;
  int _1254;
  int _1255;
  int _1256;
  int _1257;
  int _1258;
  int _1259;
  int _1260;
  int _1261;
  int _1262;
  int _1263;
  int _1264;
  int _1265;
  int _1266;
  int _1267;
  int _1268;
  int _1269;
  int _1270;
  int _1271;
  int _1272;
  int _1273;
  int _1274;
  int _1275;
  int _1276;
  int _1277;
  int _1278;
  int _1279;
  int _1280;
  int _1281;
  int _1282;
  int _1283;
  int _1284;
  int _1285;
  int _1286;
  int _1287;
  int _1288;
  int _1289;
  int _1290;
  int _1291;
  int _1292;
  int _1293;
  int _1294;
  int _1295;
  int _1296;
  int _1297;
  int _1298;
  int _1299;
  int _1300;
  int _1301;
  int _1302;
  int _1303;
  int _1304;
  int _1305;
  int _1306;
  int _1307;
  int _1308;
  int _1309;
  int _1310;
  int _1311;
  int _1312;
  int _1313;
  int _1314;
  int _1315;
  int _1316;
  int _1317;
  int _1318;
  int _1319;
  int _1320;
  int _1321;
  int _1322;
  int _1323;
  int _1324;
  int _1325;
  int _1326;
  int _1327;
  int _1328;
  int _1329;
  int _1330;
  int _1331;
  int _1332;
  int _1333;
  int _1334;
  int _1335;
  int _1336;
  int _1337;
  int _1338;
  int _1339;
  int _1340;
  int _1341;
  int _1342;
  int _1343;
  int _1344;
  int _1345;
  int _1346;
  int _1347;
  int _1348;
  int _1349;
  int _1350;
  int _1351;
  int _1352;
  int _1353;
  int _1354;
  int _1355;
  int _1356;
  int _1357;
  int _1358;
  int _1359;
  int _1360;
  int _1361;
  int _1362;
  int _1363;
  int _1364;
  int _1365;
  int _1366;
  int _1367;
  int _1368;
  int _1369;
  int _1370;
  int _1371;
  int _1372;
  int _1373;
  int _1374;
  int _1375;
  int _1376;
  int _1377;
  int _1378;
  int _1379;
  int _1380;
  int _1381;
  int _1382;
  int _1383;
  int _1384;
  int _1385;
  int _1386;
  int _1387;
  int _1388;
  int _1389;
  int _1390;
  int _1391;
  int _1392;
  int _1393;
  int _1394;
  int _1395;
  int _1396;
  int _1397;
  int _1398;
  int _1399;
  int _1400;
  int _1401;
  int _1402;
  int _1403;
  int _1404;
  int _1405;
  int _1406;
  int _1407;
  int _1408;
  int _1409;
  int _1410;
  int _1411;
  int _1412;
  int _1413;
  int _1414;
  int _1415;
  int _1416;
  int _1417;
  int _1418;
  int _1419;
  int _1420;
  int _1421;
  int _1422;
  int _1423;
  int _1424;
  int _1425;
  int _1426;
  int _1427;
  int _1428;
  int _1429;
  int _1430;
  int _1431;
  int _1432;
  int _1433;
  int _1434;
  int _1435;
  int _1436;
  int _1437;
  int _1438;
  int _1439;
  int _1440;
  int _1441;
  int _1442;
  int _1443;
  int _1444;
  int _1445;
  int _1446;
  int _1447;
  int _1448;
  int _1449;
  int _1450;
  int _1451;
  int _1452;
  int _1453;
  int _1454;
  int _1455;
  int _1456;
  int _1457;
  int _1458;
  int _1459;
  int _1460;
  int _1461;
  int _1462;
  int _1463;
  int _1464;
  int _1465;
  int _1466;
  int _1467;
  int _1468;
  int _1469;
  int _1470;
  int _1471;
  int _1472;
  int _1473;
  int _1474;
  int _1475;
  int _1476;
  int _1477;
  int _1478;
  int _1479;
  int _1480;
  int _1481;
  int _1482;
  int _1483;
  int _1484;
  int _1485;
  int _1486;
  int _1487;
  int _1488;
  int _1489;
  int _1490;
  int _1491;
  int _1492;
  int _1493;
  int _1494;
  int _1495;
  int _1496;
  int _1497;
  int _1498;
  int _1499;
  int _1500;
  int _1501;
  int _1502;
  int _1503;
  int _1504;
  int _1505;
  int _1506;
  int _1507;
  int _1508;
  int _1509;
  int _1510;
  int _1511;
  int _1512;
  int _1513;
  int _1514;
  int _1515;
  int _1516;
  int _1517;
  int _1518;
  int _1519;
  int _1520;
  int _1521;
  int _1522;
  int _1523;
  int _1524;
  int _1525;
  int _1526;
  int _1527;
  int _1528;
  int _1529;
  int _1530;
  int _1531;
  int _1532;
  int _1533;
  int _1534;
  int _1535;
  int _1536;
  int _1537;
  int _1538;
  int _1539;
  int _1540;
  int _1541;
  int _1542;
  int _1543;
  int _1544;
  int _1545;
  int _1546;
  int _1547;
  int _1548;
  int _1549;
  int _1550;
  int _1551;
  int _1552;
  int _1553;
  int _1554;
  int _1555;
  int _1556;
  int _1557;
  int _1558;
  int _1559;
  int _1560;
  int _1561;
  int _1562;
  int _1563;
  int _1564;
  int _1565;
  int _1566;
  int _1567;
  int _1568;
  int _1569;
  int _1570;
  int _1571;
  int _1572;
  int _1573;
  int _1574;
  int _1575;
  int _1576;
  int _1577;
  int _1578;
  int _1579;
  int _1580;
  int _1581;
  int _1582;
  int _1583;
  int _1584;
  int _1585;
  int _1586;
  int _1587;
  int _1588;
  int _1589;
  int _1590;
  int _1591;
  int _1592;
  int _1593;
  int _1594;
  int _1595;
  int _1596;
  int _1597;
  int _1598;
  int _1599;
  int _1600;
  int _1601;
  int _1602;
  int _1603;
  int _1604;
  int _1605;
  int _1606;
  int _1607;
  int _1608;
  int _1609;
  int _1610;
  int _1611;
  int _1612;
  int _1613;
  int _1614;
  int _1615;
  int _1616;
  int _1617;
  int _1618;
  int _1619;
  int _1620;
  int _1621;
  int _1622;
  int _1623;
  int _1624;
  int _1625;
  int _1626;
  int _1627;
  int _1628;
  int _1629;
  int _1630;
  int _1631;
  int _1632;
  int _1633;
  int _1634;
  int _1635;
  int _1636;
  int _1637;
  int _1638;
  int _1639;
  int _1640;
  int _1641;
  int _1642;
  int _1643;
  int _1644;
  int _1645;
  int _1646;
  int _1647;
  int _1648;
  int _1649;
  int _1650;
  int _1651;
  int _1652;
  int _1653;
  int _1654;
  int _1655;
  int _1656;
  int _1657;
  int _1658;
  int _1659;
  int _1660;
  int _1661;
  int _1662;
  int _1663;
  int _1664;
  int _1665;
  int _1666;
  int _1667;
  int _1668;
  int _1669;
  int _1670;
  int _1671;
  int _1672;
  int _1673;
  int _1674;
  int _1675;
  int _1676;
  int _1677;
  int _1678;
  int _1679;
  int _1680;
  int _1681;
  int _1682;
  int _1683;
  int _1684;
  int _1685;
  int _1686;
  int _1687;
  int _1688;
  int _1689;
  int _1690;
  int _1691;
  int _1692;
  int _1693;
  int _1694;
  int _1695;
  int _1696;
  int _1697;
  int _1698;
  int _1699;
  int _1700;
  int _1701;
  int _1702;
  int _1703;
  int _1704;
  int _1705;
  int _1706;
  int _1707;
  int _1708;
  int _1709;
  int _1710;
  int _1711;
  int _1712;
  int _1713;
  int _1714;
  int _1715;
  int _1716;
  int _1717;
  int _1718;
  int _1719;
  int _1720;
  int _1721;
  int _1722;
  int _1723;
  int _1724;
  int _1725;
  int _1726;
  int _1727;
  int _1728;
  int _1729;
  int _1730;
  int _1731;
  int _1732;
  int _1733;
  int _1734;
  int _1735;
  int _1736;
  int _1737;
  int _1738;
  int _1739;
  int _1740;
  int _1741;
  int _1742;
  int _1743;
  int _1744;
  int _1745;
  int _1746;
  int _1747;
  int _1748;
  int _1749;
  int _1750;
  int _1751;
  int _1752;
  int _1753;
  int _1754;
  int _1755;
  int _1756;
  int _1757;
  int _1758;
  int _1759;
  int _1760;
  int _1761;
  int _1762;
  int _1763;
  int _1764;
  int _1765;
  int _1766;
  int _1767;
  int _1768;
  int _1769;
  int _1770;
  int _1771;
  int _1772;
  int _1773;
  int _1774;
  int _1775;
  int _1776;
  int _1777;
  int _1778;
  int _1779;
  int _1780;
  int _1781;
  int _1782;
  int _1783;
  int _1784;
  int _1785;
  int _1786;
  int _1787;
  int _1788;
  int _1789;
  int _1790;
  int _1791;
  int _1792;
  int _1793;
  int _1794;
  int _1795;
  int _1796;
  int _1797;
  int _1798;
  int _1799;
  int _1800;
  int _1801;
  int _1802;
  int _1803;
  int _1804;
  int _1805;
  int _1806;
  int _1807;
  int _1808;
  int _1809;
  int _1810;
  int _1811;
  int _1812;
  int _1813;
  int _1814;
  int _1815;
  int _1816;
  int _1817;
  int _1818;
  int _1819;
  int _1820;
  int _1821;
  int _1822;
  int _1823;
  int _1824;
  int _1825;
  int _1826;
  int _1827;
  int _1828;
  int _1829;
  int _1830;
  int _1831;
  int _1832;
  int _1833;
  int _1834;
  int _1835;
  int _1836;
  int _1837;
  int _1838;
  int _1839;
  int _1840;
  int _1841;
  int _1842;
  int _1843;
  int _1844;
  int _1845;
  int _1846;
  int _1847;
  int _1848;
  int _1849;
  int _1850;
  int _1851;
  int _1852;
  int _1853;
  int _1854;
  int _1855;
  int _1856;
  int _1857;
  int _1858;
  int _1859;
  int _1860;
  int _1861;
  int _1862;
  int _1863;
  int _1864;
  int _1865;
  int _1866;
  int _1867;
  int _1868;
  int _1869;
  int _1870;
  int _1871;
  int _1872;
  int _1873;
  int _1874;
  int _1875;
  int _1876;
  int _1877;
  int _1878;
  int _1879;
  int _1880;
  int _1881;
  int _1882;
  int _1883;
  int _1884;
  int _1885;
  int _1886;
  int _1887;
  int _1888;
  int _1889;
  int _1890;
  int _1891;
  int _1892;
  int _1893;
  int _1894;
  int _1895;
  int _1896;
  int _1897;
  int _1898;
  int _1899;
  int _1900;
  int _1901;
  int _1902;
  int _1903;
  int _1904;
  int _1905;
  int _1906;
  int _1907;
  int _1908;
  int _1909;
  int _1910;
  int _1911;
  int _1912;
  int _1913;
  int _1914;
  int _1915;
  int _1916;
  int _1917;
  int _1918;
  int _1919;
  int _1920;
  int _1921;
  int _1922;
  int _1923;
  int _1924;
  int _1925;
  int _1926;
  int _1927;
  int _1928;
  int _1929;
  int _1930;
  int _1931;
  int _1932;
  int _1933;
  int _1934;
  int _1935;
  int _1936;
  int _1937;
  int _1938;
  int _1939;
  int _1940;
  int _1941;
  int _1942;
  int _1943;
  int _1944;
  int _1945;
  int _1946;
  int _1947;
  int _1948;
  int _1949;
  int _1950;
  int _1951;
  int _1952;
  int _1953;
  int _1954;
  int _1955;
  int _1956;
  int _1957;
  int _1958;
  int _1959;
  int _1960;
  int _1961;
  int _1962;
  int _1963;
  int _1964;
  int _1965;
  int _1966;
  int _1967;
  int _1968;
  int _1969;
  int _1970;
  int _1971;
  int _1972;
  int _1973;
  int _1974;
  int _1975;
  int _1976;
  int _1977;
  int _1978;
  int _1979;
  int _1980;
  int _1981;
  int _1982;
  int _1983;
  int _1984;
  int _1985;
  int _1986;
  int _1987;
  int _1988;
  int _1989;
  int _1990;
  int _1991;
  int _1992;
  int _1993;
  int _1994;
  int _1995;
  int _1996;
  int _1997;
  int _1998;
  int _1999;
  int _2000;
  int _2001;

  __BB(2):
  goto __BB3;

  __BB(3):
  _3 = __PHI (__BB2: x_1(D));
  if (_3 != _3)
    goto __BB4;
  else
    goto __BB4;

  __BB(4):
  _4 = __PHI (__BB3: _3);
  if (_4 != _4)
    goto __BB5;
  else
    goto __BB5;

  __BB(5):
  _5 = __PHI (__BB4: _4);
  if (_5 != _5)
    goto __BB6;
  else
    goto __BB6;

  __BB(6):
  _6 = __PHI (__BB5: _5);
  if (_6 != _6)
    goto __BB7;
  else
    goto __BB7;

  __BB(7):
  _7 = __PHI (__BB6: _6);
  if (_7 != _7)
    goto __BB8;
  else
    goto __BB8;

  __BB(8):
  _8 = __PHI (__BB7: _7);
  if (_8 != _8)
    goto __BB9;
  else
    goto __BB9;

  __BB(9):
  _9 = __PHI (__BB8: _8);
  if (_9 != _9)
    goto __BB10;
  else
    goto __BB10;

  __BB(10):
  _10 = __PHI (__BB9: _9);
  if (_10 != _10)
    goto __BB11;
  else
    goto __BB11;

  __BB(11):
  _11 = __PHI (__BB10: _10);
  if (_11 != _11)
    goto __BB12;
  else
    goto __BB12;

  __BB(12):
  _12 = __PHI (__BB11: _11);
  if (_12 != _12)
    goto __BB13;
  else
    goto __BB13;

  __BB(13):
  _13 = __PHI (__BB12: _12);
  if (_13 != _13)
    goto __BB14;
  else
    goto __BB14;

  __BB(14):
  _14 = __PHI (__BB13: _13);
  if (_14 != _14)
    goto __BB15;
  else
    goto __BB15;

  __BB(15):
  _15 = __PHI (__BB14: _14);
  if (_15 != _15)
    goto __BB16;
  else
    goto __BB16;

  __BB(16):
  _16 = __PHI (__BB15: _15);
  if (_16 != _16)
    goto __BB17;
  else
    goto __BB17;

  __BB(17):
  _17 = __PHI (__BB16: _16);
  if (_17 != _17)
    goto __BB18;
  else
    goto __BB18;

  __BB(18):
  _18 = __PHI (__BB17: _17);
  if (_18 != _18)
    goto __BB19;
  else
    goto __BB19;

  __BB(19):
  _19 = __PHI (__BB18: _18);
  if (_19 != _19)
    goto __BB20;
  else
    goto __BB20;

  __BB(20):
  _20 = __PHI (__BB19: _19);
  if (_20 != _20)
    goto __BB21;
  else
    goto __BB21;

  __BB(21):
  _21 = __PHI (__BB20: _20);
  if (_21 != _21)
    goto __BB22;
  else
    goto __BB22;

  __BB(22):
  _22 = __PHI (__BB21: _21);
  if (_22 != _22)
    goto __BB23;
  else
    goto __BB23;

  __BB(23):
  _23 = __PHI (__BB22: _22);
  if (_23 != _23)
    goto __BB24;
  else
    goto __BB24;

  __BB(24):
  _24 = __PHI (__BB23: _23);
  if (_24 != _24)
    goto __BB25;
  else
    goto __BB25;

  __BB(25):
  _25 = __PHI (__BB24: _24);
  if (_25 != _25)
    goto __BB26;
  else
    goto __BB26;

  __BB(26):
  _26 = __PHI (__BB25: _25);
  if (_26 != _26)
    goto __BB27;
  else
    goto __BB27;

  __BB(27):
  _27 = __PHI (__BB26: _26);
  if (_27 != _27)
    goto __BB28;
  else
    goto __BB28;

  __BB(28):
  _28 = __PHI (__BB27: _27);
  if (_28 != _28)
    goto __BB29;
  else
    goto __BB29;

  __BB(29):
  _29 = __PHI (__BB28: _28);
  if (_29 != _29)
    goto __BB30;
  else
    goto __BB30;

  __BB(30):
  _30 = __PHI (__BB29: _29);
  if (_30 != _30)
    goto __BB31;
  else
    goto __BB31;

  __BB(31):
  _31 = __PHI (__BB30: _30);
  if (_31 != _31)
    goto __BB32;
  else
    goto __BB32;

  __BB(32):
  _32 = __PHI (__BB31: _31);
  if (_32 != _32)
    goto __BB33;
  else
    goto __BB33;

  __BB(33):
  _33 = __PHI (__BB32: _32);
  if (_33 != _33)
    goto __BB34;
  else
    goto __BB34;

  __BB(34):
  _34 = __PHI (__BB33: _33);
  if (_34 != _34)
    goto __BB35;
  else
    goto __BB35;

  __BB(35):
  _35 = __PHI (__BB34: _34);
  if (_35 != _35)
    goto __BB36;
  else
    goto __BB36;

  __BB(36):
  _36 = __PHI (__BB35: _35);
  if (_36 != _36)
    goto __BB37;
  else
    goto __BB37;

  __BB(37):
  _37 = __PHI (__BB36: _36);
  if (_37 != _37)
    goto __BB38;
  else
    goto __BB38;

  __BB(38):
  _38 = __PHI (__BB37: _37);
  if (_38 != _38)
    goto __BB39;
  else
    goto __BB39;

  __BB(39):
  _39 = __PHI (__BB38: _38);
  if (_39 != _39)
    goto __BB40;
  else
    goto __BB40;

  __BB(40):
  _40 = __PHI (__BB39: _39);
  if (_40 != _40)
    goto __BB41;
  else
    goto __BB41;

  __BB(41):
  _41 = __PHI (__BB40: _40);
  if (_41 != _41)
    goto __BB42;
  else
    goto __BB42;

  __BB(42):
  _42 = __PHI (__BB41: _41);
  if (_42 != _42)
    goto __BB43;
  else
    goto __BB43;

  __BB(43):
  _43 = __PHI (__BB42: _42);
  if (_43 != _43)
    goto __BB44;
  else
    goto __BB44;

  __BB(44):
  _44 = __PHI (__BB43: _43);
  if (_44 != _44)
    goto __BB45;
  else
    goto __BB45;

  __BB(45):
  _45 = __PHI (__BB44: _44);
  if (_45 != _45)
    goto __BB46;
  else
    goto __BB46;

  __BB(46):
  _46 = __PHI (__BB45: _45);
  if (_46 != _46)
    goto __BB47;
  else
    goto __BB47;

  __BB(47):
  _47 = __PHI (__BB46: _46);
  if (_47 != _47)
    goto __BB48;
  else
    goto __BB48;

  __BB(48):
  _48 = __PHI (__BB47: _47);
  if (_48 != _48)
    goto __BB49;
  else
    goto __BB49;

  __BB(49):
  _49 = __PHI (__BB48: _48);
  if (_49 != _49)
    goto __BB50;
  else
    goto __BB50;

  __BB(50):
  _50 = __PHI (__BB49: _49);
  if (_50 != _50)
    goto __BB51;
  else
    goto __BB51;

  __BB(51):
  _51 = __PHI (__BB50: _50);
  if (_51 != _51)
    goto __BB52;
  else
    goto __BB52;

  __BB(52):
  _52 = __PHI (__BB51: _51);
  if (_52 != _52)
    goto __BB53;
  else
    goto __BB53;

  __BB(53):
  _53 = __PHI (__BB52: _52);
  if (_53 != _53)
    goto __BB54;
  else
    goto __BB54;

  __BB(54):
  _54 = __PHI (__BB53: _53);
  if (_54 != _54)
    goto __BB55;
  else
    goto __BB55;

  __BB(55):
  _55 = __PHI (__BB54: _54);
  if (_55 != _55)
    goto __BB56;
  else
    goto __BB56;

  __BB(56):
  _56 = __PHI (__BB55: _55);
  if (_56 != _56)
    goto __BB57;
  else
    goto __BB57;

  __BB(57):
  _57 = __PHI (__BB56: _56);
  if (_57 != _57)
    goto __BB58;
  else
    goto __BB58;

  __BB(58):
  _58 = __PHI (__BB57: _57);
  if (_58 != _58)
    goto __BB59;
  else
    goto __BB59;

  __BB(59):
  _59 = __PHI (__BB58: _58);
  if (_59 != _59)
    goto __BB60;
  else
    goto __BB60;

  __BB(60):
  _60 = __PHI (__BB59: _59);
  if (_60 != _60)
    goto __BB61;
  else
    goto __BB61;

  __BB(61):
  _61 = __PHI (__BB60: _60);
  if (_61 != _61)
    goto __BB62;
  else
    goto __BB62;

  __BB(62):
  _62 = __PHI (__BB61: _61);
  if (_62 != _62)
    goto __BB63;
  else
    goto __BB63;

  __BB(63):
  _63 = __PHI (__BB62: _62);
  if (_63 != _63)
    goto __BB64;
  else
    goto __BB64;

  __BB(64):
  _64 = __PHI (__BB63: _63);
  if (_64 != _64)
    goto __BB65;
  else
    goto __BB65;

  __BB(65):
  _65 = __PHI (__BB64: _64);
  if (_65 != _65)
    goto __BB66;
  else
    goto __BB66;

  __BB(66):
  _66 = __PHI (__BB65: _65);
  if (_66 != _66)
    goto __BB67;
  else
    goto __BB67;

  __BB(67):
  _67 = __PHI (__BB66: _66);
  if (_67 != _67)
    goto __BB68;
  else
    goto __BB68;

  __BB(68):
  _68 = __PHI (__BB67: _67);
  if (_68 != _68)
    goto __BB69;
  else
    goto __BB69;

  __BB(69):
  _69 = __PHI (__BB68: _68);
  if (_69 != _69)
    goto __BB70;
  else
    goto __BB70;

  __BB(70):
  _70 = __PHI (__BB69: _69);
  if (_70 != _70)
    goto __BB71;
  else
    goto __BB71;

  __BB(71):
  _71 = __PHI (__BB70: _70);
  if (_71 != _71)
    goto __BB72;
  else
    goto __BB72;

  __BB(72):
  _72 = __PHI (__BB71: _71);
  if (_72 != _72)
    goto __BB73;
  else
    goto __BB73;

  __BB(73):
  _73 = __PHI (__BB72: _72);
  if (_73 != _73)
    goto __BB74;
  else
    goto __BB74;

  __BB(74):
  _74 = __PHI (__BB73: _73);
  if (_74 != _74)
    goto __BB75;
  else
    goto __BB75;

  __BB(75):
  _75 = __PHI (__BB74: _74);
  if (_75 != _75)
    goto __BB76;
  else
    goto __BB76;

  __BB(76):
  _76 = __PHI (__BB75: _75);
  if (_76 != _76)
    goto __BB77;
  else
    goto __BB77;

  __BB(77):
  _77 = __PHI (__BB76: _76);
  if (_77 != _77)
    goto __BB78;
  else
    goto __BB78;

  __BB(78):
  _78 = __PHI (__BB77: _77);
  if (_78 != _78)
    goto __BB79;
  else
    goto __BB79;

  __BB(79):
  _79 = __PHI (__BB78: _78);
  if (_79 != _79)
    goto __BB80;
  else
    goto __BB80;

  __BB(80):
  _80 = __PHI (__BB79: _79);
  if (_80 != _80)
    goto __BB81;
  else
    goto __BB81;

  __BB(81):
  _81 = __PHI (__BB80: _80);
  if (_81 != _81)
    goto __BB82;
  else
    goto __BB82;

  __BB(82):
  _82 = __PHI (__BB81: _81);
  if (_82 != _82)
    goto __BB83;
  else
    goto __BB83;

  __BB(83):
  _83 = __PHI (__BB82: _82);
  if (_83 != _83)
    goto __BB84;
  else
    goto __BB84;

  __BB(84):
  _84 = __PHI (__BB83: _83);
  if (_84 != _84)
    goto __BB85;
  else
    goto __BB85;

  __BB(85):
  _85 = __PHI (__BB84: _84);
  if (_85 != _85)
    goto __BB86;
  else
    goto __BB86;

  __BB(86):
  _86 = __PHI (__BB85: _85);
  if (_86 != _86)
    goto __BB87;
  else
    goto __BB87;

  __BB(87):
  _87 = __PHI (__BB86: _86);
  if (_87 != _87)
    goto __BB88;
  else
    goto __BB88;

  __BB(88):
  _88 = __PHI (__BB87: _87);
  if (_88 != _88)
    goto __BB89;
  else
    goto __BB89;

  __BB(89):
  _89 = __PHI (__BB88: _88);
  if (_89 != _89)
    goto __BB90;
  else
    goto __BB90;

  __BB(90):
  _90 = __PHI (__BB89: _89);
  if (_90 != _90)
    goto __BB91;
  else
    goto __BB91;

  __BB(91):
  _91 = __PHI (__BB90: _90);
  if (_91 != _91)
    goto __BB92;
  else
    goto __BB92;

  __BB(92):
  _92 = __PHI (__BB91: _91);
  if (_92 != _92)
    goto __BB93;
  else
    goto __BB93;

  __BB(93):
  _93 = __PHI (__BB92: _92);
  if (_93 != _93)
    goto __BB94;
  else
    goto __BB94;

  __BB(94):
  _94 = __PHI (__BB93: _93);
  if (_94 != _94)
    goto __BB95;
  else
    goto __BB95;

  __BB(95):
  _95 = __PHI (__BB94: _94);
  if (_95 != _95)
    goto __BB96;
  else
    goto __BB96;

  __BB(96):
  _96 = __PHI (__BB95: _95);
  if (_96 != _96)
    goto __BB97;
  else
    goto __BB97;

  __BB(97):
  _97 = __PHI (__BB96: _96);
  if (_97 != _97)
    goto __BB98;
  else
    goto __BB98;

  __BB(98):
  _98 = __PHI (__BB97: _97);
  if (_98 != _98)
    goto __BB99;
  else
    goto __BB99;

  __BB(99):
  _99 = __PHI (__BB98: _98);
  if (_99 != _99)
    goto __BB100;
  else
    goto __BB100;

  __BB(100):
  _100 = __PHI (__BB99: _99);
  if (_100 != _100)
    goto __BB101;
  else
    goto __BB101;

  __BB(101):
  _101 = __PHI (__BB100: _100);
  if (_101 != _101)
    goto __BB102;
  else
    goto __BB102;

  __BB(102):
  _102 = __PHI (__BB101: _101);
  if (_102 != _102)
    goto __BB103;
  else
    goto __BB103;

  __BB(103):
  _103 = __PHI (__BB102: _102);
  if (_103 != _103)
    goto __BB104;
  else
    goto __BB104;

  __BB(104):
  _104 = __PHI (__BB103: _103);
  if (_104 != _104)
    goto __BB105;
  else
    goto __BB105;

  __BB(105):
  _105 = __PHI (__BB104: _104);
  if (_105 != _105)
    goto __BB106;
  else
    goto __BB106;

  __BB(106):
  _106 = __PHI (__BB105: _105);
  if (_106 != _106)
    goto __BB107;
  else
    goto __BB107;

  __BB(107):
  _107 = __PHI (__BB106: _106);
  if (_107 != _107)
    goto __BB108;
  else
    goto __BB108;

  __BB(108):
  _108 = __PHI (__BB107: _107);
  if (_108 != _108)
    goto __BB109;
  else
    goto __BB109;

  __BB(109):
  _109 = __PHI (__BB108: _108);
  if (_109 != _109)
    goto __BB110;
  else
    goto __BB110;

  __BB(110):
  _110 = __PHI (__BB109: _109);
  if (_110 != _110)
    goto __BB111;
  else
    goto __BB111;

  __BB(111):
  _111 = __PHI (__BB110: _110);
  if (_111 != _111)
    goto __BB112;
  else
    goto __BB112;

  __BB(112):
  _112 = __PHI (__BB111: _111);
  if (_112 != _112)
    goto __BB113;
  else
    goto __BB113;

  __BB(113):
  _113 = __PHI (__BB112: _112);
  if (_113 != _113)
    goto __BB114;
  else
    goto __BB114;

  __BB(114):
  _114 = __PHI (__BB113: _113);
  if (_114 != _114)
    goto __BB115;
  else
    goto __BB115;

  __BB(115):
  _115 = __PHI (__BB114: _114);
  if (_115 != _115)
    goto __BB116;
  else
    goto __BB116;

  __BB(116):
  _116 = __PHI (__BB115: _115);
  if (_116 != _116)
    goto __BB117;
  else
    goto __BB117;

  __BB(117):
  _117 = __PHI (__BB116: _116);
  if (_117 != _117)
    goto __BB118;
  else
    goto __BB118;

  __BB(118):
  _118 = __PHI (__BB117: _117);
  if (_118 != _118)
    goto __BB119;
  else
    goto __BB119;

  __BB(119):
  _119 = __PHI (__BB118: _118);
  if (_119 != _119)
    goto __BB120;
  else
    goto __BB120;

  __BB(120):
  _120 = __PHI (__BB119: _119);
  if (_120 != _120)
    goto __BB121;
  else
    goto __BB121;

  __BB(121):
  _121 = __PHI (__BB120: _120);
  if (_121 != _121)
    goto __BB122;
  else
    goto __BB122;

  __BB(122):
  _122 = __PHI (__BB121: _121);
  if (_122 != _122)
    goto __BB123;
  else
    goto __BB123;

  __BB(123):
  _123 = __PHI (__BB122: _122);
  if (_123 != _123)
    goto __BB124;
  else
    goto __BB124;

  __BB(124):
  _124 = __PHI (__BB123: _123);
  if (_124 != _124)
    goto __BB125;
  else
    goto __BB125;

  __BB(125):
  _125 = __PHI (__BB124: _124);
  if (_125 != _125)
    goto __BB126;
  else
    goto __BB126;

  __BB(126):
  _126 = __PHI (__BB125: _125);
  if (_126 != _126)
    goto __BB127;
  else
    goto __BB127;

  __BB(127):
  _127 = __PHI (__BB126: _126);
  if (_127 != _127)
    goto __BB128;
  else
    goto __BB128;

  __BB(128):
  _128 = __PHI (__BB127: _127);
  if (_128 != _128)
    goto __BB129;
  else
    goto __BB129;

  __BB(129):
  _129 = __PHI (__BB128: _128);
  if (_129 != _129)
    goto __BB130;
  else
    goto __BB130;

  __BB(130):
  _130 = __PHI (__BB129: _129);
  if (_130 != _130)
    goto __BB131;
  else
    goto __BB131;

  __BB(131):
  _131 = __PHI (__BB130: _130);
  if (_131 != _131)
    goto __BB132;
  else
    goto __BB132;

  __BB(132):
  _132 = __PHI (__BB131: _131);
  if (_132 != _132)
    goto __BB133;
  else
    goto __BB133;

  __BB(133):
  _133 = __PHI (__BB132: _132);
  if (_133 != _133)
    goto __BB134;
  else
    goto __BB134;

  __BB(134):
  _134 = __PHI (__BB133: _133);
  if (_134 != _134)
    goto __BB135;
  else
    goto __BB135;

  __BB(135):
  _135 = __PHI (__BB134: _134);
  if (_135 != _135)
    goto __BB136;
  else
    goto __BB136;

  __BB(136):
  _136 = __PHI (__BB135: _135);
  if (_136 != _136)
    goto __BB137;
  else
    goto __BB137;

  __BB(137):
  _137 = __PHI (__BB136: _136);
  if (_137 != _137)
    goto __BB138;
  else
    goto __BB138;

  __BB(138):
  _138 = __PHI (__BB137: _137);
  if (_138 != _138)
    goto __BB139;
  else
    goto __BB139;

  __BB(139):
  _139 = __PHI (__BB138: _138);
  if (_139 != _139)
    goto __BB140;
  else
    goto __BB140;

  __BB(140):
  _140 = __PHI (__BB139: _139);
  if (_140 != _140)
    goto __BB141;
  else
    goto __BB141;

  __BB(141):
  _141 = __PHI (__BB140: _140);
  if (_141 != _141)
    goto __BB142;
  else
    goto __BB142;

  __BB(142):
  _142 = __PHI (__BB141: _141);
  if (_142 != _142)
    goto __BB143;
  else
    goto __BB143;

  __BB(143):
  _143 = __PHI (__BB142: _142);
  if (_143 != _143)
    goto __BB144;
  else
    goto __BB144;

  __BB(144):
  _144 = __PHI (__BB143: _143);
  if (_144 != _144)
    goto __BB145;
  else
    goto __BB145;

  __BB(145):
  _145 = __PHI (__BB144: _144);
  if (_145 != _145)
    goto __BB146;
  else
    goto __BB146;

  __BB(146):
  _146 = __PHI (__BB145: _145);
  if (_146 != _146)
    goto __BB147;
  else
    goto __BB147;

  __BB(147):
  _147 = __PHI (__BB146: _146);
  if (_147 != _147)
    goto __BB148;
  else
    goto __BB148;

  __BB(148):
  _148 = __PHI (__BB147: _147);
  if (_148 != _148)
    goto __BB149;
  else
    goto __BB149;

  __BB(149):
  _149 = __PHI (__BB148: _148);
  if (_149 != _149)
    goto __BB150;
  else
    goto __BB150;

  __BB(150):
  _150 = __PHI (__BB149: _149);
  if (_150 != _150)
    goto __BB151;
  else
    goto __BB151;

  __BB(151):
  _151 = __PHI (__BB150: _150);
  if (_151 != _151)
    goto __BB152;
  else
    goto __BB152;

  __BB(152):
  _152 = __PHI (__BB151: _151);
  if (_152 != _152)
    goto __BB153;
  else
    goto __BB153;

  __BB(153):
  _153 = __PHI (__BB152: _152);
  if (_153 != _153)
    goto __BB154;
  else
    goto __BB154;

  __BB(154):
  _154 = __PHI (__BB153: _153);
  if (_154 != _154)
    goto __BB155;
  else
    goto __BB155;

  __BB(155):
  _155 = __PHI (__BB154: _154);
  if (_155 != _155)
    goto __BB156;
  else
    goto __BB156;

  __BB(156):
  _156 = __PHI (__BB155: _155);
  if (_156 != _156)
    goto __BB157;
  else
    goto __BB157;

  __BB(157):
  _157 = __PHI (__BB156: _156);
  if (_157 != _157)
    goto __BB158;
  else
    goto __BB158;

  __BB(158):
  _158 = __PHI (__BB157: _157);
  if (_158 != _158)
    goto __BB159;
  else
    goto __BB159;

  __BB(159):
  _159 = __PHI (__BB158: _158);
  if (_159 != _159)
    goto __BB160;
  else
    goto __BB160;

  __BB(160):
  _160 = __PHI (__BB159: _159);
  if (_160 != _160)
    goto __BB161;
  else
    goto __BB161;

  __BB(161):
  _161 = __PHI (__BB160: _160);
  if (_161 != _161)
    goto __BB162;
  else
    goto __BB162;

  __BB(162):
  _162 = __PHI (__BB161: _161);
  if (_162 != _162)
    goto __BB163;
  else
    goto __BB163;

  __BB(163):
  _163 = __PHI (__BB162: _162);
  if (_163 != _163)
    goto __BB164;
  else
    goto __BB164;

  __BB(164):
  _164 = __PHI (__BB163: _163);
  if (_164 != _164)
    goto __BB165;
  else
    goto __BB165;

  __BB(165):
  _165 = __PHI (__BB164: _164);
  if (_165 != _165)
    goto __BB166;
  else
    goto __BB166;

  __BB(166):
  _166 = __PHI (__BB165: _165);
  if (_166 != _166)
    goto __BB167;
  else
    goto __BB167;

  __BB(167):
  _167 = __PHI (__BB166: _166);
  if (_167 != _167)
    goto __BB168;
  else
    goto __BB168;

  __BB(168):
  _168 = __PHI (__BB167: _167);
  if (_168 != _168)
    goto __BB169;
  else
    goto __BB169;

  __BB(169):
  _169 = __PHI (__BB168: _168);
  if (_169 != _169)
    goto __BB170;
  else
    goto __BB170;

  __BB(170):
  _170 = __PHI (__BB169: _169);
  if (_170 != _170)
    goto __BB171;
  else
    goto __BB171;

  __BB(171):
  _171 = __PHI (__BB170: _170);
  if (_171 != _171)
    goto __BB172;
  else
    goto __BB172;

  __BB(172):
  _172 = __PHI (__BB171: _171);
  if (_172 != _172)
    goto __BB173;
  else
    goto __BB173;

  __BB(173):
  _173 = __PHI (__BB172: _172);
  if (_173 != _173)
    goto __BB174;
  else
    goto __BB174;

  __BB(174):
  _174 = __PHI (__BB173: _173);
  if (_174 != _174)
    goto __BB175;
  else
    goto __BB175;

  __BB(175):
  _175 = __PHI (__BB174: _174);
  if (_175 != _175)
    goto __BB176;
  else
    goto __BB176;

  __BB(176):
  _176 = __PHI (__BB175: _175);
  if (_176 != _176)
    goto __BB177;
  else
    goto __BB177;

  __BB(177):
  _177 = __PHI (__BB176: _176);
  if (_177 != _177)
    goto __BB178;
  else
    goto __BB178;

  __BB(178):
  _178 = __PHI (__BB177: _177);
  if (_178 != _178)
    goto __BB179;
  else
    goto __BB179;

  __BB(179):
  _179 = __PHI (__BB178: _178);
  if (_179 != _179)
    goto __BB180;
  else
    goto __BB180;

  __BB(180):
  _180 = __PHI (__BB179: _179);
  if (_180 != _180)
    goto __BB181;
  else
    goto __BB181;

  __BB(181):
  _181 = __PHI (__BB180: _180);
  if (_181 != _181)
    goto __BB182;
  else
    goto __BB182;

  __BB(182):
  _182 = __PHI (__BB181: _181);
  if (_182 != _182)
    goto __BB183;
  else
    goto __BB183;

  __BB(183):
  _183 = __PHI (__BB182: _182);
  if (_183 != _183)
    goto __BB184;
  else
    goto __BB184;

  __BB(184):
  _184 = __PHI (__BB183: _183);
  if (_184 != _184)
    goto __BB185;
  else
    goto __BB185;

  __BB(185):
  _185 = __PHI (__BB184: _184);
  if (_185 != _185)
    goto __BB186;
  else
    goto __BB186;

  __BB(186):
  _186 = __PHI (__BB185: _185);
  if (_186 != _186)
    goto __BB187;
  else
    goto __BB187;

  __BB(187):
  _187 = __PHI (__BB186: _186);
  if (_187 != _187)
    goto __BB188;
  else
    goto __BB188;

  __BB(188):
  _188 = __PHI (__BB187: _187);
  if (_188 != _188)
    goto __BB189;
  else
    goto __BB189;

  __BB(189):
  _189 = __PHI (__BB188: _188);
  if (_189 != _189)
    goto __BB190;
  else
    goto __BB190;

  __BB(190):
  _190 = __PHI (__BB189: _189);
  if (_190 != _190)
    goto __BB191;
  else
    goto __BB191;

  __BB(191):
  _191 = __PHI (__BB190: _190);
  if (_191 != _191)
    goto __BB192;
  else
    goto __BB192;

  __BB(192):
  _192 = __PHI (__BB191: _191);
  if (_192 != _192)
    goto __BB193;
  else
    goto __BB193;

  __BB(193):
  _193 = __PHI (__BB192: _192);
  if (_193 != _193)
    goto __BB194;
  else
    goto __BB194;

  __BB(194):
  _194 = __PHI (__BB193: _193);
  if (_194 != _194)
    goto __BB195;
  else
    goto __BB195;

  __BB(195):
  _195 = __PHI (__BB194: _194);
  if (_195 != _195)
    goto __BB196;
  else
    goto __BB196;

  __BB(196):
  _196 = __PHI (__BB195: _195);
  if (_196 != _196)
    goto __BB197;
  else
    goto __BB197;

  __BB(197):
  _197 = __PHI (__BB196: _196);
  if (_197 != _197)
    goto __BB198;
  else
    goto __BB198;

  __BB(198):
  _198 = __PHI (__BB197: _197);
  if (_198 != _198)
    goto __BB199;
  else
    goto __BB199;

  __BB(199):
  _199 = __PHI (__BB198: _198);
  if (_199 != _199)
    goto __BB200;
  else
    goto __BB200;

  __BB(200):
  _200 = __PHI (__BB199: _199);
  if (_200 != _200)
    goto __BB201;
  else
    goto __BB201;

  __BB(201):
  _201 = __PHI (__BB200: _200);
  if (_201 != _201)
    goto __BB202;
  else
    goto __BB202;

  __BB(202):
  _202 = __PHI (__BB201: _201);
  if (_202 != _202)
    goto __BB203;
  else
    goto __BB203;

  __BB(203):
  _203 = __PHI (__BB202: _202);
  if (_203 != _203)
    goto __BB204;
  else
    goto __BB204;

  __BB(204):
  _204 = __PHI (__BB203: _203);
  if (_204 != _204)
    goto __BB205;
  else
    goto __BB205;

  __BB(205):
  _205 = __PHI (__BB204: _204);
  if (_205 != _205)
    goto __BB206;
  else
    goto __BB206;

  __BB(206):
  _206 = __PHI (__BB205: _205);
  if (_206 != _206)
    goto __BB207;
  else
    goto __BB207;

  __BB(207):
  _207 = __PHI (__BB206: _206);
  if (_207 != _207)
    goto __BB208;
  else
    goto __BB208;

  __BB(208):
  _208 = __PHI (__BB207: _207);
  if (_208 != _208)
    goto __BB209;
  else
    goto __BB209;

  __BB(209):
  _209 = __PHI (__BB208: _208);
  if (_209 != _209)
    goto __BB210;
  else
    goto __BB210;

  __BB(210):
  _210 = __PHI (__BB209: _209);
  if (_210 != _210)
    goto __BB211;
  else
    goto __BB211;

  __BB(211):
  _211 = __PHI (__BB210: _210);
  if (_211 != _211)
    goto __BB212;
  else
    goto __BB212;

  __BB(212):
  _212 = __PHI (__BB211: _211);
  if (_212 != _212)
    goto __BB213;
  else
    goto __BB213;

  __BB(213):
  _213 = __PHI (__BB212: _212);
  if (_213 != _213)
    goto __BB214;
  else
    goto __BB214;

  __BB(214):
  _214 = __PHI (__BB213: _213);
  if (_214 != _214)
    goto __BB215;
  else
    goto __BB215;

  __BB(215):
  _215 = __PHI (__BB214: _214);
  if (_215 != _215)
    goto __BB216;
  else
    goto __BB216;

  __BB(216):
  _216 = __PHI (__BB215: _215);
  if (_216 != _216)
    goto __BB217;
  else
    goto __BB217;

  __BB(217):
  _217 = __PHI (__BB216: _216);
  if (_217 != _217)
    goto __BB218;
  else
    goto __BB218;

  __BB(218):
  _218 = __PHI (__BB217: _217);
  if (_218 != _218)
    goto __BB219;
  else
    goto __BB219;

  __BB(219):
  _219 = __PHI (__BB218: _218);
  if (_219 != _219)
    goto __BB220;
  else
    goto __BB220;

  __BB(220):
  _220 = __PHI (__BB219: _219);
  if (_220 != _220)
    goto __BB221;
  else
    goto __BB221;

  __BB(221):
  _221 = __PHI (__BB220: _220);
  if (_221 != _221)
    goto __BB222;
  else
    goto __BB222;

  __BB(222):
  _222 = __PHI (__BB221: _221);
  if (_222 != _222)
    goto __BB223;
  else
    goto __BB223;

  __BB(223):
  _223 = __PHI (__BB222: _222);
  if (_223 != _223)
    goto __BB224;
  else
    goto __BB224;

  __BB(224):
  _224 = __PHI (__BB223: _223);
  if (_224 != _224)
    goto __BB225;
  else
    goto __BB225;

  __BB(225):
  _225 = __PHI (__BB224: _224);
  if (_225 != _225)
    goto __BB226;
  else
    goto __BB226;

  __BB(226):
  _226 = __PHI (__BB225: _225);
  if (_226 != _226)
    goto __BB227;
  else
    goto __BB227;

  __BB(227):
  _227 = __PHI (__BB226: _226);
  if (_227 != _227)
    goto __BB228;
  else
    goto __BB228;

  __BB(228):
  _228 = __PHI (__BB227: _227);
  if (_228 != _228)
    goto __BB229;
  else
    goto __BB229;

  __BB(229):
  _229 = __PHI (__BB228: _228);
  if (_229 != _229)
    goto __BB230;
  else
    goto __BB230;

  __BB(230):
  _230 = __PHI (__BB229: _229);
  if (_230 != _230)
    goto __BB231;
  else
    goto __BB231;

  __BB(231):
  _231 = __PHI (__BB230: _230);
  if (_231 != _231)
    goto __BB232;
  else
    goto __BB232;

  __BB(232):
  _232 = __PHI (__BB231: _231);
  if (_232 != _232)
    goto __BB233;
  else
    goto __BB233;

  __BB(233):
  _233 = __PHI (__BB232: _232);
  if (_233 != _233)
    goto __BB234;
  else
    goto __BB234;

  __BB(234):
  _234 = __PHI (__BB233: _233);
  if (_234 != _234)
    goto __BB235;
  else
    goto __BB235;

  __BB(235):
  _235 = __PHI (__BB234: _234);
  if (_235 != _235)
    goto __BB236;
  else
    goto __BB236;

  __BB(236):
  _236 = __PHI (__BB235: _235);
  if (_236 != _236)
    goto __BB237;
  else
    goto __BB237;

  __BB(237):
  _237 = __PHI (__BB236: _236);
  if (_237 != _237)
    goto __BB238;
  else
    goto __BB238;

  __BB(238):
  _238 = __PHI (__BB237: _237);
  if (_238 != _238)
    goto __BB239;
  else
    goto __BB239;

  __BB(239):
  _239 = __PHI (__BB238: _238);
  if (_239 != _239)
    goto __BB240;
  else
    goto __BB240;

  __BB(240):
  _240 = __PHI (__BB239: _239);
  if (_240 != _240)
    goto __BB241;
  else
    goto __BB241;

  __BB(241):
  _241 = __PHI (__BB240: _240);
  if (_241 != _241)
    goto __BB242;
  else
    goto __BB242;

  __BB(242):
  _242 = __PHI (__BB241: _241);
  if (_242 != _242)
    goto __BB243;
  else
    goto __BB243;

  __BB(243):
  _243 = __PHI (__BB242: _242);
  if (_243 != _243)
    goto __BB244;
  else
    goto __BB244;

  __BB(244):
  _244 = __PHI (__BB243: _243);
  if (_244 != _244)
    goto __BB245;
  else
    goto __BB245;

  __BB(245):
  _245 = __PHI (__BB244: _244);
  if (_245 != _245)
    goto __BB246;
  else
    goto __BB246;

  __BB(246):
  _246 = __PHI (__BB245: _245);
  if (_246 != _246)
    goto __BB247;
  else
    goto __BB247;

  __BB(247):
  _247 = __PHI (__BB246: _246);
  if (_247 != _247)
    goto __BB248;
  else
    goto __BB248;

  __BB(248):
  _248 = __PHI (__BB247: _247);
  if (_248 != _248)
    goto __BB249;
  else
    goto __BB249;

  __BB(249):
  _249 = __PHI (__BB248: _248);
  if (_249 != _249)
    goto __BB250;
  else
    goto __BB250;

  __BB(250):
  _250 = __PHI (__BB249: _249);
  if (_250 != _250)
    goto __BB251;
  else
    goto __BB251;

  __BB(251):
  _251 = __PHI (__BB250: _250);
  if (_251 != _251)
    goto __BB252;
  else
    goto __BB252;

  __BB(252):
  _252 = __PHI (__BB251: _251);
  if (_252 != _252)
    goto __BB253;
  else
    goto __BB253;

  __BB(253):
  _253 = __PHI (__BB252: _252);
  if (_253 != _253)
    goto __BB254;
  else
    goto __BB254;

  __BB(254):
  _254 = __PHI (__BB253: _253);
  if (_254 != _254)
    goto __BB255;
  else
    goto __BB255;

  __BB(255):
  _255 = __PHI (__BB254: _254);
  if (_255 != _255)
    goto __BB256;
  else
    goto __BB256;

  __BB(256):
  _256 = __PHI (__BB255: _255);
  if (_256 != _256)
    goto __BB257;
  else
    goto __BB257;

  __BB(257):
  _257 = __PHI (__BB256: _256);
  if (_257 != _257)
    goto __BB258;
  else
    goto __BB258;

  __BB(258):
  _258 = __PHI (__BB257: _257);
  if (_258 != _258)
    goto __BB259;
  else
    goto __BB259;

  __BB(259):
  _259 = __PHI (__BB258: _258);
  if (_259 != _259)
    goto __BB260;
  else
    goto __BB260;

  __BB(260):
  _260 = __PHI (__BB259: _259);
  if (_260 != _260)
    goto __BB261;
  else
    goto __BB261;

  __BB(261):
  _261 = __PHI (__BB260: _260);
  if (_261 != _261)
    goto __BB262;
  else
    goto __BB262;

  __BB(262):
  _262 = __PHI (__BB261: _261);
  if (_262 != _262)
    goto __BB263;
  else
    goto __BB263;

  __BB(263):
  _263 = __PHI (__BB262: _262);
  if (_263 != _263)
    goto __BB264;
  else
    goto __BB264;

  __BB(264):
  _264 = __PHI (__BB263: _263);
  if (_264 != _264)
    goto __BB265;
  else
    goto __BB265;

  __BB(265):
  _265 = __PHI (__BB264: _264);
  if (_265 != _265)
    goto __BB266;
  else
    goto __BB266;

  __BB(266):
  _266 = __PHI (__BB265: _265);
  if (_266 != _266)
    goto __BB267;
  else
    goto __BB267;

  __BB(267):
  _267 = __PHI (__BB266: _266);
  if (_267 != _267)
    goto __BB268;
  else
    goto __BB268;

  __BB(268):
  _268 = __PHI (__BB267: _267);
  if (_268 != _268)
    goto __BB269;
  else
    goto __BB269;

  __BB(269):
  _269 = __PHI (__BB268: _268);
  if (_269 != _269)
    goto __BB270;
  else
    goto __BB270;

  __BB(270):
  _270 = __PHI (__BB269: _269);
  if (_270 != _270)
    goto __BB271;
  else
    goto __BB271;

  __BB(271):
  _271 = __PHI (__BB270: _270);
  if (_271 != _271)
    goto __BB272;
  else
    goto __BB272;

  __BB(272):
  _272 = __PHI (__BB271: _271);
  if (_272 != _272)
    goto __BB273;
  else
    goto __BB273;

  __BB(273):
  _273 = __PHI (__BB272: _272);
  if (_273 != _273)
    goto __BB274;
  else
    goto __BB274;

  __BB(274):
  _274 = __PHI (__BB273: _273);
  if (_274 != _274)
    goto __BB275;
  else
    goto __BB275;

  __BB(275):
  _275 = __PHI (__BB274: _274);
  if (_275 != _275)
    goto __BB276;
  else
    goto __BB276;

  __BB(276):
  _276 = __PHI (__BB275: _275);
  if (_276 != _276)
    goto __BB277;
  else
    goto __BB277;

  __BB(277):
  _277 = __PHI (__BB276: _276);
  if (_277 != _277)
    goto __BB278;
  else
    goto __BB278;

  __BB(278):
  _278 = __PHI (__BB277: _277);
  if (_278 != _278)
    goto __BB279;
  else
    goto __BB279;

  __BB(279):
  _279 = __PHI (__BB278: _278);
  if (_279 != _279)
    goto __BB280;
  else
    goto __BB280;

  __BB(280):
  _280 = __PHI (__BB279: _279);
  if (_280 != _280)
    goto __BB281;
  else
    goto __BB281;

  __BB(281):
  _281 = __PHI (__BB280: _280);
  if (_281 != _281)
    goto __BB282;
  else
    goto __BB282;

  __BB(282):
  _282 = __PHI (__BB281: _281);
  if (_282 != _282)
    goto __BB283;
  else
    goto __BB283;

  __BB(283):
  _283 = __PHI (__BB282: _282);
  if (_283 != _283)
    goto __BB284;
  else
    goto __BB284;

  __BB(284):
  _284 = __PHI (__BB283: _283);
  if (_284 != _284)
    goto __BB285;
  else
    goto __BB285;

  __BB(285):
  _285 = __PHI (__BB284: _284);
  if (_285 != _285)
    goto __BB286;
  else
    goto __BB286;

  __BB(286):
  _286 = __PHI (__BB285: _285);
  if (_286 != _286)
    goto __BB287;
  else
    goto __BB287;

  __BB(287):
  _287 = __PHI (__BB286: _286);
  if (_287 != _287)
    goto __BB288;
  else
    goto __BB288;

  __BB(288):
  _288 = __PHI (__BB287: _287);
  if (_288 != _288)
    goto __BB289;
  else
    goto __BB289;

  __BB(289):
  _289 = __PHI (__BB288: _288);
  if (_289 != _289)
    goto __BB290;
  else
    goto __BB290;

  __BB(290):
  _290 = __PHI (__BB289: _289);
  if (_290 != _290)
    goto __BB291;
  else
    goto __BB291;

  __BB(291):
  _291 = __PHI (__BB290: _290);
  if (_291 != _291)
    goto __BB292;
  else
    goto __BB292;

  __BB(292):
  _292 = __PHI (__BB291: _291);
  if (_292 != _292)
    goto __BB293;
  else
    goto __BB293;

  __BB(293):
  _293 = __PHI (__BB292: _292);
  if (_293 != _293)
    goto __BB294;
  else
    goto __BB294;

  __BB(294):
  _294 = __PHI (__BB293: _293);
  if (_294 != _294)
    goto __BB295;
  else
    goto __BB295;

  __BB(295):
  _295 = __PHI (__BB294: _294);
  if (_295 != _295)
    goto __BB296;
  else
    goto __BB296;

  __BB(296):
  _296 = __PHI (__BB295: _295);
  if (_296 != _296)
    goto __BB297;
  else
    goto __BB297;

  __BB(297):
  _297 = __PHI (__BB296: _296);
  if (_297 != _297)
    goto __BB298;
  else
    goto __BB298;

  __BB(298):
  _298 = __PHI (__BB297: _297);
  if (_298 != _298)
    goto __BB299;
  else
    goto __BB299;

  __BB(299):
  _299 = __PHI (__BB298: _298);
  if (_299 != _299)
    goto __BB300;
  else
    goto __BB300;

  __BB(300):
  _300 = __PHI (__BB299: _299);
  if (_300 != _300)
    goto __BB301;
  else
    goto __BB301;

  __BB(301):
  _301 = __PHI (__BB300: _300);
  if (_301 != _301)
    goto __BB302;
  else
    goto __BB302;

  __BB(302):
  _302 = __PHI (__BB301: _301);
  if (_302 != _302)
    goto __BB303;
  else
    goto __BB303;

  __BB(303):
  _303 = __PHI (__BB302: _302);
  if (_303 != _303)
    goto __BB304;
  else
    goto __BB304;

  __BB(304):
  _304 = __PHI (__BB303: _303);
  if (_304 != _304)
    goto __BB305;
  else
    goto __BB305;

  __BB(305):
  _305 = __PHI (__BB304: _304);
  if (_305 != _305)
    goto __BB306;
  else
    goto __BB306;

  __BB(306):
  _306 = __PHI (__BB305: _305);
  if (_306 != _306)
    goto __BB307;
  else
    goto __BB307;

  __BB(307):
  _307 = __PHI (__BB306: _306);
  if (_307 != _307)
    goto __BB308;
  else
    goto __BB308;

  __BB(308):
  _308 = __PHI (__BB307: _307);
  if (_308 != _308)
    goto __BB309;
  else
    goto __BB309;

  __BB(309):
  _309 = __PHI (__BB308: _308);
  if (_309 != _309)
    goto __BB310;
  else
    goto __BB310;

  __BB(310):
  _310 = __PHI (__BB309: _309);
  if (_310 != _310)
    goto __BB311;
  else
    goto __BB311;

  __BB(311):
  _311 = __PHI (__BB310: _310);
  if (_311 != _311)
    goto __BB312;
  else
    goto __BB312;

  __BB(312):
  _312 = __PHI (__BB311: _311);
  if (_312 != _312)
    goto __BB313;
  else
    goto __BB313;

  __BB(313):
  _313 = __PHI (__BB312: _312);
  if (_313 != _313)
    goto __BB314;
  else
    goto __BB314;

  __BB(314):
  _314 = __PHI (__BB313: _313);
  if (_314 != _314)
    goto __BB315;
  else
    goto __BB315;

  __BB(315):
  _315 = __PHI (__BB314: _314);
  if (_315 != _315)
    goto __BB316;
  else
    goto __BB316;

  __BB(316):
  _316 = __PHI (__BB315: _315);
  if (_316 != _316)
    goto __BB317;
  else
    goto __BB317;

  __BB(317):
  _317 = __PHI (__BB316: _316);
  if (_317 != _317)
    goto __BB318;
  else
    goto __BB318;

  __BB(318):
  _318 = __PHI (__BB317: _317);
  if (_318 != _318)
    goto __BB319;
  else
    goto __BB319;

  __BB(319):
  _319 = __PHI (__BB318: _318);
  if (_319 != _319)
    goto __BB320;
  else
    goto __BB320;

  __BB(320):
  _320 = __PHI (__BB319: _319);
  if (_320 != _320)
    goto __BB321;
  else
    goto __BB321;

  __BB(321):
  _321 = __PHI (__BB320: _320);
  if (_321 != _321)
    goto __BB322;
  else
    goto __BB322;

  __BB(322):
  _322 = __PHI (__BB321: _321);
  if (_322 != _322)
    goto __BB323;
  else
    goto __BB323;

  __BB(323):
  _323 = __PHI (__BB322: _322);
  if (_323 != _323)
    goto __BB324;
  else
    goto __BB324;

  __BB(324):
  _324 = __PHI (__BB323: _323);
  if (_324 != _324)
    goto __BB325;
  else
    goto __BB325;

  __BB(325):
  _325 = __PHI (__BB324: _324);
  if (_325 != _325)
    goto __BB326;
  else
    goto __BB326;

  __BB(326):
  _326 = __PHI (__BB325: _325);
  if (_326 != _326)
    goto __BB327;
  else
    goto __BB327;

  __BB(327):
  _327 = __PHI (__BB326: _326);
  if (_327 != _327)
    goto __BB328;
  else
    goto __BB328;

  __BB(328):
  _328 = __PHI (__BB327: _327);
  if (_328 != _328)
    goto __BB329;
  else
    goto __BB329;

  __BB(329):
  _329 = __PHI (__BB328: _328);
  if (_329 != _329)
    goto __BB330;
  else
    goto __BB330;

  __BB(330):
  _330 = __PHI (__BB329: _329);
  if (_330 != _330)
    goto __BB331;
  else
    goto __BB331;

  __BB(331):
  _331 = __PHI (__BB330: _330);
  if (_331 != _331)
    goto __BB332;
  else
    goto __BB332;

  __BB(332):
  _332 = __PHI (__BB331: _331);
  if (_332 != _332)
    goto __BB333;
  else
    goto __BB333;

  __BB(333):
  _333 = __PHI (__BB332: _332);
  if (_333 != _333)
    goto __BB334;
  else
    goto __BB334;

  __BB(334):
  _334 = __PHI (__BB333: _333);
  if (_334 != _334)
    goto __BB335;
  else
    goto __BB335;

  __BB(335):
  _335 = __PHI (__BB334: _334);
  if (_335 != _335)
    goto __BB336;
  else
    goto __BB336;

  __BB(336):
  _336 = __PHI (__BB335: _335);
  if (_336 != _336)
    goto __BB337;
  else
    goto __BB337;

  __BB(337):
  _337 = __PHI (__BB336: _336);
  if (_337 != _337)
    goto __BB338;
  else
    goto __BB338;

  __BB(338):
  _338 = __PHI (__BB337: _337);
  if (_338 != _338)
    goto __BB339;
  else
    goto __BB339;

  __BB(339):
  _339 = __PHI (__BB338: _338);
  if (_339 != _339)
    goto __BB340;
  else
    goto __BB340;

  __BB(340):
  _340 = __PHI (__BB339: _339);
  if (_340 != _340)
    goto __BB341;
  else
    goto __BB341;

  __BB(341):
  _341 = __PHI (__BB340: _340);
  if (_341 != _341)
    goto __BB342;
  else
    goto __BB342;

  __BB(342):
  _342 = __PHI (__BB341: _341);
  if (_342 != _342)
    goto __BB343;
  else
    goto __BB343;

  __BB(343):
  _343 = __PHI (__BB342: _342);
  if (_343 != _343)
    goto __BB344;
  else
    goto __BB344;

  __BB(344):
  _344 = __PHI (__BB343: _343);
  if (_344 != _344)
    goto __BB345;
  else
    goto __BB345;

  __BB(345):
  _345 = __PHI (__BB344: _344);
  if (_345 != _345)
    goto __BB346;
  else
    goto __BB346;

  __BB(346):
  _346 = __PHI (__BB345: _345);
  if (_346 != _346)
    goto __BB347;
  else
    goto __BB347;

  __BB(347):
  _347 = __PHI (__BB346: _346);
  if (_347 != _347)
    goto __BB348;
  else
    goto __BB348;

  __BB(348):
  _348 = __PHI (__BB347: _347);
  if (_348 != _348)
    goto __BB349;
  else
    goto __BB349;

  __BB(349):
  _349 = __PHI (__BB348: _348);
  if (_349 != _349)
    goto __BB350;
  else
    goto __BB350;

  __BB(350):
  _350 = __PHI (__BB349: _349);
  if (_350 != _350)
    goto __BB351;
  else
    goto __BB351;

  __BB(351):
  _351 = __PHI (__BB350: _350);
  if (_351 != _351)
    goto __BB352;
  else
    goto __BB352;

  __BB(352):
  _352 = __PHI (__BB351: _351);
  if (_352 != _352)
    goto __BB353;
  else
    goto __BB353;

  __BB(353):
  _353 = __PHI (__BB352: _352);
  if (_353 != _353)
    goto __BB354;
  else
    goto __BB354;

  __BB(354):
  _354 = __PHI (__BB353: _353);
  if (_354 != _354)
    goto __BB355;
  else
    goto __BB355;

  __BB(355):
  _355 = __PHI (__BB354: _354);
  if (_355 != _355)
    goto __BB356;
  else
    goto __BB356;

  __BB(356):
  _356 = __PHI (__BB355: _355);
  if (_356 != _356)
    goto __BB357;
  else
    goto __BB357;

  __BB(357):
  _357 = __PHI (__BB356: _356);
  if (_357 != _357)
    goto __BB358;
  else
    goto __BB358;

  __BB(358):
  _358 = __PHI (__BB357: _357);
  if (_358 != _358)
    goto __BB359;
  else
    goto __BB359;

  __BB(359):
  _359 = __PHI (__BB358: _358);
  if (_359 != _359)
    goto __BB360;
  else
    goto __BB360;

  __BB(360):
  _360 = __PHI (__BB359: _359);
  if (_360 != _360)
    goto __BB361;
  else
    goto __BB361;

  __BB(361):
  _361 = __PHI (__BB360: _360);
  if (_361 != _361)
    goto __BB362;
  else
    goto __BB362;

  __BB(362):
  _362 = __PHI (__BB361: _361);
  if (_362 != _362)
    goto __BB363;
  else
    goto __BB363;

  __BB(363):
  _363 = __PHI (__BB362: _362);
  if (_363 != _363)
    goto __BB364;
  else
    goto __BB364;

  __BB(364):
  _364 = __PHI (__BB363: _363);
  if (_364 != _364)
    goto __BB365;
  else
    goto __BB365;

  __BB(365):
  _365 = __PHI (__BB364: _364);
  if (_365 != _365)
    goto __BB366;
  else
    goto __BB366;

  __BB(366):
  _366 = __PHI (__BB365: _365);
  if (_366 != _366)
    goto __BB367;
  else
    goto __BB367;

  __BB(367):
  _367 = __PHI (__BB366: _366);
  if (_367 != _367)
    goto __BB368;
  else
    goto __BB368;

  __BB(368):
  _368 = __PHI (__BB367: _367);
  if (_368 != _368)
    goto __BB369;
  else
    goto __BB369;

  __BB(369):
  _369 = __PHI (__BB368: _368);
  if (_369 != _369)
    goto __BB370;
  else
    goto __BB370;

  __BB(370):
  _370 = __PHI (__BB369: _369);
  if (_370 != _370)
    goto __BB371;
  else
    goto __BB371;

  __BB(371):
  _371 = __PHI (__BB370: _370);
  if (_371 != _371)
    goto __BB372;
  else
    goto __BB372;

  __BB(372):
  _372 = __PHI (__BB371: _371);
  if (_372 != _372)
    goto __BB373;
  else
    goto __BB373;

  __BB(373):
  _373 = __PHI (__BB372: _372);
  if (_373 != _373)
    goto __BB374;
  else
    goto __BB374;

  __BB(374):
  _374 = __PHI (__BB373: _373);
  if (_374 != _374)
    goto __BB375;
  else
    goto __BB375;

  __BB(375):
  _375 = __PHI (__BB374: _374);
  if (_375 != _375)
    goto __BB376;
  else
    goto __BB376;

  __BB(376):
  _376 = __PHI (__BB375: _375);
  if (_376 != _376)
    goto __BB377;
  else
    goto __BB377;

  __BB(377):
  _377 = __PHI (__BB376: _376);
  if (_377 != _377)
    goto __BB378;
  else
    goto __BB378;

  __BB(378):
  _378 = __PHI (__BB377: _377);
  if (_378 != _378)
    goto __BB379;
  else
    goto __BB379;

  __BB(379):
  _379 = __PHI (__BB378: _378);
  if (_379 != _379)
    goto __BB380;
  else
    goto __BB380;

  __BB(380):
  _380 = __PHI (__BB379: _379);
  if (_380 != _380)
    goto __BB381;
  else
    goto __BB381;

  __BB(381):
  _381 = __PHI (__BB380: _380);
  if (_381 != _381)
    goto __BB382;
  else
    goto __BB382;

  __BB(382):
  _382 = __PHI (__BB381: _381);
  if (_382 != _382)
    goto __BB383;
  else
    goto __BB383;

  __BB(383):
  _383 = __PHI (__BB382: _382);
  if (_383 != _383)
    goto __BB384;
  else
    goto __BB384;

  __BB(384):
  _384 = __PHI (__BB383: _383);
  if (_384 != _384)
    goto __BB385;
  else
    goto __BB385;

  __BB(385):
  _385 = __PHI (__BB384: _384);
  if (_385 != _385)
    goto __BB386;
  else
    goto __BB386;

  __BB(386):
  _386 = __PHI (__BB385: _385);
  if (_386 != _386)
    goto __BB387;
  else
    goto __BB387;

  __BB(387):
  _387 = __PHI (__BB386: _386);
  if (_387 != _387)
    goto __BB388;
  else
    goto __BB388;

  __BB(388):
  _388 = __PHI (__BB387: _387);
  if (_388 != _388)
    goto __BB389;
  else
    goto __BB389;

  __BB(389):
  _389 = __PHI (__BB388: _388);
  if (_389 != _389)
    goto __BB390;
  else
    goto __BB390;

  __BB(390):
  _390 = __PHI (__BB389: _389);
  if (_390 != _390)
    goto __BB391;
  else
    goto __BB391;

  __BB(391):
  _391 = __PHI (__BB390: _390);
  if (_391 != _391)
    goto __BB392;
  else
    goto __BB392;

  __BB(392):
  _392 = __PHI (__BB391: _391);
  if (_392 != _392)
    goto __BB393;
  else
    goto __BB393;

  __BB(393):
  _393 = __PHI (__BB392: _392);
  if (_393 != _393)
    goto __BB394;
  else
    goto __BB394;

  __BB(394):
  _394 = __PHI (__BB393: _393);
  if (_394 != _394)
    goto __BB395;
  else
    goto __BB395;

  __BB(395):
  _395 = __PHI (__BB394: _394);
  if (_395 != _395)
    goto __BB396;
  else
    goto __BB396;

  __BB(396):
  _396 = __PHI (__BB395: _395);
  if (_396 != _396)
    goto __BB397;
  else
    goto __BB397;

  __BB(397):
  _397 = __PHI (__BB396: _396);
  if (_397 != _397)
    goto __BB398;
  else
    goto __BB398;

  __BB(398):
  _398 = __PHI (__BB397: _397);
  if (_398 != _398)
    goto __BB399;
  else
    goto __BB399;

  __BB(399):
  _399 = __PHI (__BB398: _398);
  if (_399 != _399)
    goto __BB400;
  else
    goto __BB400;

  __BB(400):
  _400 = __PHI (__BB399: _399);
  if (_400 != _400)
    goto __BB401;
  else
    goto __BB401;

  __BB(401):
  _401 = __PHI (__BB400: _400);
  if (_401 != _401)
    goto __BB402;
  else
    goto __BB402;

  __BB(402):
  _402 = __PHI (__BB401: _401);
  if (_402 != _402)
    goto __BB403;
  else
    goto __BB403;

  __BB(403):
  _403 = __PHI (__BB402: _402);
  if (_403 != _403)
    goto __BB404;
  else
    goto __BB404;

  __BB(404):
  _404 = __PHI (__BB403: _403);
  if (_404 != _404)
    goto __BB405;
  else
    goto __BB405;

  __BB(405):
  _405 = __PHI (__BB404: _404);
  if (_405 != _405)
    goto __BB406;
  else
    goto __BB406;

  __BB(406):
  _406 = __PHI (__BB405: _405);
  if (_406 != _406)
    goto __BB407;
  else
    goto __BB407;

  __BB(407):
  _407 = __PHI (__BB406: _406);
  if (_407 != _407)
    goto __BB408;
  else
    goto __BB408;

  __BB(408):
  _408 = __PHI (__BB407: _407);
  if (_408 != _408)
    goto __BB409;
  else
    goto __BB409;

  __BB(409):
  _409 = __PHI (__BB408: _408);
  if (_409 != _409)
    goto __BB410;
  else
    goto __BB410;

  __BB(410):
  _410 = __PHI (__BB409: _409);
  if (_410 != _410)
    goto __BB411;
  else
    goto __BB411;

  __BB(411):
  _411 = __PHI (__BB410: _410);
  if (_411 != _411)
    goto __BB412;
  else
    goto __BB412;

  __BB(412):
  _412 = __PHI (__BB411: _411);
  if (_412 != _412)
    goto __BB413;
  else
    goto __BB413;

  __BB(413):
  _413 = __PHI (__BB412: _412);
  if (_413 != _413)
    goto __BB414;
  else
    goto __BB414;

  __BB(414):
  _414 = __PHI (__BB413: _413);
  if (_414 != _414)
    goto __BB415;
  else
    goto __BB415;

  __BB(415):
  _415 = __PHI (__BB414: _414);
  if (_415 != _415)
    goto __BB416;
  else
    goto __BB416;

  __BB(416):
  _416 = __PHI (__BB415: _415);
  if (_416 != _416)
    goto __BB417;
  else
    goto __BB417;

  __BB(417):
  _417 = __PHI (__BB416: _416);
  if (_417 != _417)
    goto __BB418;
  else
    goto __BB418;

  __BB(418):
  _418 = __PHI (__BB417: _417);
  if (_418 != _418)
    goto __BB419;
  else
    goto __BB419;

  __BB(419):
  _419 = __PHI (__BB418: _418);
  if (_419 != _419)
    goto __BB420;
  else
    goto __BB420;

  __BB(420):
  _420 = __PHI (__BB419: _419);
  if (_420 != _420)
    goto __BB421;
  else
    goto __BB421;

  __BB(421):
  _421 = __PHI (__BB420: _420);
  if (_421 != _421)
    goto __BB422;
  else
    goto __BB422;

  __BB(422):
  _422 = __PHI (__BB421: _421);
  if (_422 != _422)
    goto __BB423;
  else
    goto __BB423;

  __BB(423):
  _423 = __PHI (__BB422: _422);
  if (_423 != _423)
    goto __BB424;
  else
    goto __BB424;

  __BB(424):
  _424 = __PHI (__BB423: _423);
  if (_424 != _424)
    goto __BB425;
  else
    goto __BB425;

  __BB(425):
  _425 = __PHI (__BB424: _424);
  if (_425 != _425)
    goto __BB426;
  else
    goto __BB426;

  __BB(426):
  _426 = __PHI (__BB425: _425);
  if (_426 != _426)
    goto __BB427;
  else
    goto __BB427;

  __BB(427):
  _427 = __PHI (__BB426: _426);
  if (_427 != _427)
    goto __BB428;
  else
    goto __BB428;

  __BB(428):
  _428 = __PHI (__BB427: _427);
  if (_428 != _428)
    goto __BB429;
  else
    goto __BB429;

  __BB(429):
  _429 = __PHI (__BB428: _428);
  if (_429 != _429)
    goto __BB430;
  else
    goto __BB430;

  __BB(430):
  _430 = __PHI (__BB429: _429);
  if (_430 != _430)
    goto __BB431;
  else
    goto __BB431;

  __BB(431):
  _431 = __PHI (__BB430: _430);
  if (_431 != _431)
    goto __BB432;
  else
    goto __BB432;

  __BB(432):
  _432 = __PHI (__BB431: _431);
  if (_432 != _432)
    goto __BB433;
  else
    goto __BB433;

  __BB(433):
  _433 = __PHI (__BB432: _432);
  if (_433 != _433)
    goto __BB434;
  else
    goto __BB434;

  __BB(434):
  _434 = __PHI (__BB433: _433);
  if (_434 != _434)
    goto __BB435;
  else
    goto __BB435;

  __BB(435):
  _435 = __PHI (__BB434: _434);
  if (_435 != _435)
    goto __BB436;
  else
    goto __BB436;

  __BB(436):
  _436 = __PHI (__BB435: _435);
  if (_436 != _436)
    goto __BB437;
  else
    goto __BB437;

  __BB(437):
  _437 = __PHI (__BB436: _436);
  if (_437 != _437)
    goto __BB438;
  else
    goto __BB438;

  __BB(438):
  _438 = __PHI (__BB437: _437);
  if (_438 != _438)
    goto __BB439;
  else
    goto __BB439;

  __BB(439):
  _439 = __PHI (__BB438: _438);
  if (_439 != _439)
    goto __BB440;
  else
    goto __BB440;

  __BB(440):
  _440 = __PHI (__BB439: _439);
  if (_440 != _440)
    goto __BB441;
  else
    goto __BB441;

  __BB(441):
  _441 = __PHI (__BB440: _440);
  if (_441 != _441)
    goto __BB442;
  else
    goto __BB442;

  __BB(442):
  _442 = __PHI (__BB441: _441);
  if (_442 != _442)
    goto __BB443;
  else
    goto __BB443;

  __BB(443):
  _443 = __PHI (__BB442: _442);
  if (_443 != _443)
    goto __BB444;
  else
    goto __BB444;

  __BB(444):
  _444 = __PHI (__BB443: _443);
  if (_444 != _444)
    goto __BB445;
  else
    goto __BB445;

  __BB(445):
  _445 = __PHI (__BB444: _444);
  if (_445 != _445)
    goto __BB446;
  else
    goto __BB446;

  __BB(446):
  _446 = __PHI (__BB445: _445);
  if (_446 != _446)
    goto __BB447;
  else
    goto __BB447;

  __BB(447):
  _447 = __PHI (__BB446: _446);
  if (_447 != _447)
    goto __BB448;
  else
    goto __BB448;

  __BB(448):
  _448 = __PHI (__BB447: _447);
  if (_448 != _448)
    goto __BB449;
  else
    goto __BB449;

  __BB(449):
  _449 = __PHI (__BB448: _448);
  if (_449 != _449)
    goto __BB450;
  else
    goto __BB450;

  __BB(450):
  _450 = __PHI (__BB449: _449);
  if (_450 != _450)
    goto __BB451;
  else
    goto __BB451;

  __BB(451):
  _451 = __PHI (__BB450: _450);
  if (_451 != _451)
    goto __BB452;
  else
    goto __BB452;

  __BB(452):
  _452 = __PHI (__BB451: _451);
  if (_452 != _452)
    goto __BB453;
  else
    goto __BB453;

  __BB(453):
  _453 = __PHI (__BB452: _452);
  if (_453 != _453)
    goto __BB454;
  else
    goto __BB454;

  __BB(454):
  _454 = __PHI (__BB453: _453);
  if (_454 != _454)
    goto __BB455;
  else
    goto __BB455;

  __BB(455):
  _455 = __PHI (__BB454: _454);
  if (_455 != _455)
    goto __BB456;
  else
    goto __BB456;

  __BB(456):
  _456 = __PHI (__BB455: _455);
  if (_456 != _456)
    goto __BB457;
  else
    goto __BB457;

  __BB(457):
  _457 = __PHI (__BB456: _456);
  if (_457 != _457)
    goto __BB458;
  else
    goto __BB458;

  __BB(458):
  _458 = __PHI (__BB457: _457);
  if (_458 != _458)
    goto __BB459;
  else
    goto __BB459;

  __BB(459):
  _459 = __PHI (__BB458: _458);
  if (_459 != _459)
    goto __BB460;
  else
    goto __BB460;

  __BB(460):
  _460 = __PHI (__BB459: _459);
  if (_460 != _460)
    goto __BB461;
  else
    goto __BB461;

  __BB(461):
  _461 = __PHI (__BB460: _460);
  if (_461 != _461)
    goto __BB462;
  else
    goto __BB462;

  __BB(462):
  _462 = __PHI (__BB461: _461);
  if (_462 != _462)
    goto __BB463;
  else
    goto __BB463;

  __BB(463):
  _463 = __PHI (__BB462: _462);
  if (_463 != _463)
    goto __BB464;
  else
    goto __BB464;

  __BB(464):
  _464 = __PHI (__BB463: _463);
  if (_464 != _464)
    goto __BB465;
  else
    goto __BB465;

  __BB(465):
  _465 = __PHI (__BB464: _464);
  if (_465 != _465)
    goto __BB466;
  else
    goto __BB466;

  __BB(466):
  _466 = __PHI (__BB465: _465);
  if (_466 != _466)
    goto __BB467;
  else
    goto __BB467;

  __BB(467):
  _467 = __PHI (__BB466: _466);
  if (_467 != _467)
    goto __BB468;
  else
    goto __BB468;

  __BB(468):
  _468 = __PHI (__BB467: _467);
  if (_468 != _468)
    goto __BB469;
  else
    goto __BB469;

  __BB(469):
  _469 = __PHI (__BB468: _468);
  if (_469 != _469)
    goto __BB470;
  else
    goto __BB470;

  __BB(470):
  _470 = __PHI (__BB469: _469);
  if (_470 != _470)
    goto __BB471;
  else
    goto __BB471;

  __BB(471):
  _471 = __PHI (__BB470: _470);
  if (_471 != _471)
    goto __BB472;
  else
    goto __BB472;

  __BB(472):
  _472 = __PHI (__BB471: _471);
  if (_472 != _472)
    goto __BB473;
  else
    goto __BB473;

  __BB(473):
  _473 = __PHI (__BB472: _472);
  if (_473 != _473)
    goto __BB474;
  else
    goto __BB474;

  __BB(474):
  _474 = __PHI (__BB473: _473);
  if (_474 != _474)
    goto __BB475;
  else
    goto __BB475;

  __BB(475):
  _475 = __PHI (__BB474: _474);
  if (_475 != _475)
    goto __BB476;
  else
    goto __BB476;

  __BB(476):
  _476 = __PHI (__BB475: _475);
  if (_476 != _476)
    goto __BB477;
  else
    goto __BB477;

  __BB(477):
  _477 = __PHI (__BB476: _476);
  if (_477 != _477)
    goto __BB478;
  else
    goto __BB478;

  __BB(478):
  _478 = __PHI (__BB477: _477);
  if (_478 != _478)
    goto __BB479;
  else
    goto __BB479;

  __BB(479):
  _479 = __PHI (__BB478: _478);
  if (_479 != _479)
    goto __BB480;
  else
    goto __BB480;

  __BB(480):
  _480 = __PHI (__BB479: _479);
  if (_480 != _480)
    goto __BB481;
  else
    goto __BB481;

  __BB(481):
  _481 = __PHI (__BB480: _480);
  if (_481 != _481)
    goto __BB482;
  else
    goto __BB482;

  __BB(482):
  _482 = __PHI (__BB481: _481);
  if (_482 != _482)
    goto __BB483;
  else
    goto __BB483;

  __BB(483):
  _483 = __PHI (__BB482: _482);
  if (_483 != _483)
    goto __BB484;
  else
    goto __BB484;

  __BB(484):
  _484 = __PHI (__BB483: _483);
  if (_484 != _484)
    goto __BB485;
  else
    goto __BB485;

  __BB(485):
  _485 = __PHI (__BB484: _484);
  if (_485 != _485)
    goto __BB486;
  else
    goto __BB486;

  __BB(486):
  _486 = __PHI (__BB485: _485);
  if (_486 != _486)
    goto __BB487;
  else
    goto __BB487;

  __BB(487):
  _487 = __PHI (__BB486: _486);
  if (_487 != _487)
    goto __BB488;
  else
    goto __BB488;

  __BB(488):
  _488 = __PHI (__BB487: _487);
  if (_488 != _488)
    goto __BB489;
  else
    goto __BB489;

  __BB(489):
  _489 = __PHI (__BB488: _488);
  if (_489 != _489)
    goto __BB490;
  else
    goto __BB490;

  __BB(490):
  _490 = __PHI (__BB489: _489);
  if (_490 != _490)
    goto __BB491;
  else
    goto __BB491;

  __BB(491):
  _491 = __PHI (__BB490: _490);
  if (_491 != _491)
    goto __BB492;
  else
    goto __BB492;

  __BB(492):
  _492 = __PHI (__BB491: _491);
  if (_492 != _492)
    goto __BB493;
  else
    goto __BB493;

  __BB(493):
  _493 = __PHI (__BB492: _492);
  if (_493 != _493)
    goto __BB494;
  else
    goto __BB494;

  __BB(494):
  _494 = __PHI (__BB493: _493);
  if (_494 != _494)
    goto __BB495;
  else
    goto __BB495;

  __BB(495):
  _495 = __PHI (__BB494: _494);
  if (_495 != _495)
    goto __BB496;
  else
    goto __BB496;

  __BB(496):
  _496 = __PHI (__BB495: _495);
  if (_496 != _496)
    goto __BB497;
  else
    goto __BB497;

  __BB(497):
  _497 = __PHI (__BB496: _496);
  if (_497 != _497)
    goto __BB498;
  else
    goto __BB498;

  __BB(498):
  _498 = __PHI (__BB497: _497);
  if (_498 != _498)
    goto __BB499;
  else
    goto __BB499;

  __BB(499):
  _499 = __PHI (__BB498: _498);
  if (_499 != _499)
    goto __BB500;
  else
    goto __BB500;

  __BB(500):
  _500 = __PHI (__BB499: _499);
  if (_500 != _500)
    goto __BB501;
  else
    goto __BB501;

  __BB(501):
  _501 = __PHI (__BB500: _500);
  if (_501 != _501)
    goto __BB502;
  else
    goto __BB502;

  __BB(502):
  _502 = __PHI (__BB501: _501);
  if (_502 != _502)
    goto __BB503;
  else
    goto __BB503;

  __BB(503):
  _503 = __PHI (__BB502: _502);
  if (_503 != _503)
    goto __BB504;
  else
    goto __BB504;

  __BB(504):
  _504 = __PHI (__BB503: _503);
  if (_504 != _504)
    goto __BB505;
  else
    goto __BB505;

  __BB(505):
  _505 = __PHI (__BB504: _504);
  if (_505 != _505)
    goto __BB506;
  else
    goto __BB506;

  __BB(506):
  _506 = __PHI (__BB505: _505);
  if (_506 != _506)
    goto __BB507;
  else
    goto __BB507;

  __BB(507):
  _507 = __PHI (__BB506: _506);
  if (_507 != _507)
    goto __BB508;
  else
    goto __BB508;

  __BB(508):
  _508 = __PHI (__BB507: _507);
  if (_508 != _508)
    goto __BB509;
  else
    goto __BB509;

  __BB(509):
  _509 = __PHI (__BB508: _508);
  if (_509 != _509)
    goto __BB510;
  else
    goto __BB510;

  __BB(510):
  _510 = __PHI (__BB509: _509);
  if (_510 != _510)
    goto __BB511;
  else
    goto __BB511;

  __BB(511):
  _511 = __PHI (__BB510: _510);
  if (_511 != _511)
    goto __BB512;
  else
    goto __BB512;

  __BB(512):
  _512 = __PHI (__BB511: _511);
  if (_512 != _512)
    goto __BB513;
  else
    goto __BB513;

  __BB(513):
  _513 = __PHI (__BB512: _512);
  if (_513 != _513)
    goto __BB514;
  else
    goto __BB514;

  __BB(514):
  _514 = __PHI (__BB513: _513);
  if (_514 != _514)
    goto __BB515;
  else
    goto __BB515;

  __BB(515):
  _515 = __PHI (__BB514: _514);
  if (_515 != _515)
    goto __BB516;
  else
    goto __BB516;

  __BB(516):
  _516 = __PHI (__BB515: _515);
  if (_516 != _516)
    goto __BB517;
  else
    goto __BB517;

  __BB(517):
  _517 = __PHI (__BB516: _516);
  if (_517 != _517)
    goto __BB518;
  else
    goto __BB518;

  __BB(518):
  _518 = __PHI (__BB517: _517);
  if (_518 != _518)
    goto __BB519;
  else
    goto __BB519;

  __BB(519):
  _519 = __PHI (__BB518: _518);
  if (_519 != _519)
    goto __BB520;
  else
    goto __BB520;

  __BB(520):
  _520 = __PHI (__BB519: _519);
  if (_520 != _520)
    goto __BB521;
  else
    goto __BB521;

  __BB(521):
  _521 = __PHI (__BB520: _520);
  if (_521 != _521)
    goto __BB522;
  else
    goto __BB522;

  __BB(522):
  _522 = __PHI (__BB521: _521);
  if (_522 != _522)
    goto __BB523;
  else
    goto __BB523;

  __BB(523):
  _523 = __PHI (__BB522: _522);
  if (_523 != _523)
    goto __BB524;
  else
    goto __BB524;

  __BB(524):
  _524 = __PHI (__BB523: _523);
  if (_524 != _524)
    goto __BB525;
  else
    goto __BB525;

  __BB(525):
  _525 = __PHI (__BB524: _524);
  if (_525 != _525)
    goto __BB526;
  else
    goto __BB526;

  __BB(526):
  _526 = __PHI (__BB525: _525);
  if (_526 != _526)
    goto __BB527;
  else
    goto __BB527;

  __BB(527):
  _527 = __PHI (__BB526: _526);
  if (_527 != _527)
    goto __BB528;
  else
    goto __BB528;

  __BB(528):
  _528 = __PHI (__BB527: _527);
  if (_528 != _528)
    goto __BB529;
  else
    goto __BB529;

  __BB(529):
  _529 = __PHI (__BB528: _528);
  if (_529 != _529)
    goto __BB530;
  else
    goto __BB530;

  __BB(530):
  _530 = __PHI (__BB529: _529);
  if (_530 != _530)
    goto __BB531;
  else
    goto __BB531;

  __BB(531):
  _531 = __PHI (__BB530: _530);
  if (_531 != _531)
    goto __BB532;
  else
    goto __BB532;

  __BB(532):
  _532 = __PHI (__BB531: _531);
  if (_532 != _532)
    goto __BB533;
  else
    goto __BB533;

  __BB(533):
  _533 = __PHI (__BB532: _532);
  if (_533 != _533)
    goto __BB534;
  else
    goto __BB534;

  __BB(534):
  _534 = __PHI (__BB533: _533);
  if (_534 != _534)
    goto __BB535;
  else
    goto __BB535;

  __BB(535):
  _535 = __PHI (__BB534: _534);
  if (_535 != _535)
    goto __BB536;
  else
    goto __BB536;

  __BB(536):
  _536 = __PHI (__BB535: _535);
  if (_536 != _536)
    goto __BB537;
  else
    goto __BB537;

  __BB(537):
  _537 = __PHI (__BB536: _536);
  if (_537 != _537)
    goto __BB538;
  else
    goto __BB538;

  __BB(538):
  _538 = __PHI (__BB537: _537);
  if (_538 != _538)
    goto __BB539;
  else
    goto __BB539;

  __BB(539):
  _539 = __PHI (__BB538: _538);
  if (_539 != _539)
    goto __BB540;
  else
    goto __BB540;

  __BB(540):
  _540 = __PHI (__BB539: _539);
  if (_540 != _540)
    goto __BB541;
  else
    goto __BB541;

  __BB(541):
  _541 = __PHI (__BB540: _540);
  if (_541 != _541)
    goto __BB542;
  else
    goto __BB542;

  __BB(542):
  _542 = __PHI (__BB541: _541);
  if (_542 != _542)
    goto __BB543;
  else
    goto __BB543;

  __BB(543):
  _543 = __PHI (__BB542: _542);
  if (_543 != _543)
    goto __BB544;
  else
    goto __BB544;

  __BB(544):
  _544 = __PHI (__BB543: _543);
  if (_544 != _544)
    goto __BB545;
  else
    goto __BB545;

  __BB(545):
  _545 = __PHI (__BB544: _544);
  if (_545 != _545)
    goto __BB546;
  else
    goto __BB546;

  __BB(546):
  _546 = __PHI (__BB545: _545);
  if (_546 != _546)
    goto __BB547;
  else
    goto __BB547;

  __BB(547):
  _547 = __PHI (__BB546: _546);
  if (_547 != _547)
    goto __BB548;
  else
    goto __BB548;

  __BB(548):
  _548 = __PHI (__BB547: _547);
  if (_548 != _548)
    goto __BB549;
  else
    goto __BB549;

  __BB(549):
  _549 = __PHI (__BB548: _548);
  if (_549 != _549)
    goto __BB550;
  else
    goto __BB550;

  __BB(550):
  _550 = __PHI (__BB549: _549);
  if (_550 != _550)
    goto __BB551;
  else
    goto __BB551;

  __BB(551):
  _551 = __PHI (__BB550: _550);
  if (_551 != _551)
    goto __BB552;
  else
    goto __BB552;

  __BB(552):
  _552 = __PHI (__BB551: _551);
  if (_552 != _552)
    goto __BB553;
  else
    goto __BB553;

  __BB(553):
  _553 = __PHI (__BB552: _552);
  if (_553 != _553)
    goto __BB554;
  else
    goto __BB554;

  __BB(554):
  _554 = __PHI (__BB553: _553);
  if (_554 != _554)
    goto __BB555;
  else
    goto __BB555;

  __BB(555):
  _555 = __PHI (__BB554: _554);
  if (_555 != _555)
    goto __BB556;
  else
    goto __BB556;

  __BB(556):
  _556 = __PHI (__BB555: _555);
  if (_556 != _556)
    goto __BB557;
  else
    goto __BB557;

  __BB(557):
  _557 = __PHI (__BB556: _556);
  if (_557 != _557)
    goto __BB558;
  else
    goto __BB558;

  __BB(558):
  _558 = __PHI (__BB557: _557);
  if (_558 != _558)
    goto __BB559;
  else
    goto __BB559;

  __BB(559):
  _559 = __PHI (__BB558: _558);
  if (_559 != _559)
    goto __BB560;
  else
    goto __BB560;

  __BB(560):
  _560 = __PHI (__BB559: _559);
  if (_560 != _560)
    goto __BB561;
  else
    goto __BB561;

  __BB(561):
  _561 = __PHI (__BB560: _560);
  if (_561 != _561)
    goto __BB562;
  else
    goto __BB562;

  __BB(562):
  _562 = __PHI (__BB561: _561);
  if (_562 != _562)
    goto __BB563;
  else
    goto __BB563;

  __BB(563):
  _563 = __PHI (__BB562: _562);
  if (_563 != _563)
    goto __BB564;
  else
    goto __BB564;

  __BB(564):
  _564 = __PHI (__BB563: _563);
  if (_564 != _564)
    goto __BB565;
  else
    goto __BB565;

  __BB(565):
  _565 = __PHI (__BB564: _564);
  if (_565 != _565)
    goto __BB566;
  else
    goto __BB566;

  __BB(566):
  _566 = __PHI (__BB565: _565);
  if (_566 != _566)
    goto __BB567;
  else
    goto __BB567;

  __BB(567):
  _567 = __PHI (__BB566: _566);
  if (_567 != _567)
    goto __BB568;
  else
    goto __BB568;

  __BB(568):
  _568 = __PHI (__BB567: _567);
  if (_568 != _568)
    goto __BB569;
  else
    goto __BB569;

  __BB(569):
  _569 = __PHI (__BB568: _568);
  if (_569 != _569)
    goto __BB570;
  else
    goto __BB570;

  __BB(570):
  _570 = __PHI (__BB569: _569);
  if (_570 != _570)
    goto __BB571;
  else
    goto __BB571;

  __BB(571):
  _571 = __PHI (__BB570: _570);
  if (_571 != _571)
    goto __BB572;
  else
    goto __BB572;

  __BB(572):
  _572 = __PHI (__BB571: _571);
  if (_572 != _572)
    goto __BB573;
  else
    goto __BB573;

  __BB(573):
  _573 = __PHI (__BB572: _572);
  if (_573 != _573)
    goto __BB574;
  else
    goto __BB574;

  __BB(574):
  _574 = __PHI (__BB573: _573);
  if (_574 != _574)
    goto __BB575;
  else
    goto __BB575;

  __BB(575):
  _575 = __PHI (__BB574: _574);
  if (_575 != _575)
    goto __BB576;
  else
    goto __BB576;

  __BB(576):
  _576 = __PHI (__BB575: _575);
  if (_576 != _576)
    goto __BB577;
  else
    goto __BB577;

  __BB(577):
  _577 = __PHI (__BB576: _576);
  if (_577 != _577)
    goto __BB578;
  else
    goto __BB578;

  __BB(578):
  _578 = __PHI (__BB577: _577);
  if (_578 != _578)
    goto __BB579;
  else
    goto __BB579;

  __BB(579):
  _579 = __PHI (__BB578: _578);
  if (_579 != _579)
    goto __BB580;
  else
    goto __BB580;

  __BB(580):
  _580 = __PHI (__BB579: _579);
  if (_580 != _580)
    goto __BB581;
  else
    goto __BB581;

  __BB(581):
  _581 = __PHI (__BB580: _580);
  if (_581 != _581)
    goto __BB582;
  else
    goto __BB582;

  __BB(582):
  _582 = __PHI (__BB581: _581);
  if (_582 != _582)
    goto __BB583;
  else
    goto __BB583;

  __BB(583):
  _583 = __PHI (__BB582: _582);
  if (_583 != _583)
    goto __BB584;
  else
    goto __BB584;

  __BB(584):
  _584 = __PHI (__BB583: _583);
  if (_584 != _584)
    goto __BB585;
  else
    goto __BB585;

  __BB(585):
  _585 = __PHI (__BB584: _584);
  if (_585 != _585)
    goto __BB586;
  else
    goto __BB586;

  __BB(586):
  _586 = __PHI (__BB585: _585);
  if (_586 != _586)
    goto __BB587;
  else
    goto __BB587;

  __BB(587):
  _587 = __PHI (__BB586: _586);
  if (_587 != _587)
    goto __BB588;
  else
    goto __BB588;

  __BB(588):
  _588 = __PHI (__BB587: _587);
  if (_588 != _588)
    goto __BB589;
  else
    goto __BB589;

  __BB(589):
  _589 = __PHI (__BB588: _588);
  if (_589 != _589)
    goto __BB590;
  else
    goto __BB590;

  __BB(590):
  _590 = __PHI (__BB589: _589);
  if (_590 != _590)
    goto __BB591;
  else
    goto __BB591;

  __BB(591):
  _591 = __PHI (__BB590: _590);
  if (_591 != _591)
    goto __BB592;
  else
    goto __BB592;

  __BB(592):
  _592 = __PHI (__BB591: _591);
  if (_592 != _592)
    goto __BB593;
  else
    goto __BB593;

  __BB(593):
  _593 = __PHI (__BB592: _592);
  if (_593 != _593)
    goto __BB594;
  else
    goto __BB594;

  __BB(594):
  _594 = __PHI (__BB593: _593);
  if (_594 != _594)
    goto __BB595;
  else
    goto __BB595;

  __BB(595):
  _595 = __PHI (__BB594: _594);
  if (_595 != _595)
    goto __BB596;
  else
    goto __BB596;

  __BB(596):
  _596 = __PHI (__BB595: _595);
  if (_596 != _596)
    goto __BB597;
  else
    goto __BB597;

  __BB(597):
  _597 = __PHI (__BB596: _596);
  if (_597 != _597)
    goto __BB598;
  else
    goto __BB598;

  __BB(598):
  _598 = __PHI (__BB597: _597);
  if (_598 != _598)
    goto __BB599;
  else
    goto __BB599;

  __BB(599):
  _599 = __PHI (__BB598: _598);
  if (_599 != _599)
    goto __BB600;
  else
    goto __BB600;

  __BB(600):
  _600 = __PHI (__BB599: _599);
  if (_600 != _600)
    goto __BB601;
  else
    goto __BB601;

  __BB(601):
  _601 = __PHI (__BB600: _600);
  if (_601 != _601)
    goto __BB602;
  else
    goto __BB602;

  __BB(602):
  _602 = __PHI (__BB601: _601);
  if (_602 != _602)
    goto __BB603;
  else
    goto __BB603;

  __BB(603):
  _603 = __PHI (__BB602: _602);
  if (_603 != _603)
    goto __BB604;
  else
    goto __BB604;

  __BB(604):
  _604 = __PHI (__BB603: _603);
  if (_604 != _604)
    goto __BB605;
  else
    goto __BB605;

  __BB(605):
  _605 = __PHI (__BB604: _604);
  if (_605 != _605)
    goto __BB606;
  else
    goto __BB606;

  __BB(606):
  _606 = __PHI (__BB605: _605);
  if (_606 != _606)
    goto __BB607;
  else
    goto __BB607;

  __BB(607):
  _607 = __PHI (__BB606: _606);
  if (_607 != _607)
    goto __BB608;
  else
    goto __BB608;

  __BB(608):
  _608 = __PHI (__BB607: _607);
  if (_608 != _608)
    goto __BB609;
  else
    goto __BB609;

  __BB(609):
  _609 = __PHI (__BB608: _608);
  if (_609 != _609)
    goto __BB610;
  else
    goto __BB610;

  __BB(610):
  _610 = __PHI (__BB609: _609);
  if (_610 != _610)
    goto __BB611;
  else
    goto __BB611;

  __BB(611):
  _611 = __PHI (__BB610: _610);
  if (_611 != _611)
    goto __BB612;
  else
    goto __BB612;

  __BB(612):
  _612 = __PHI (__BB611: _611);
  if (_612 != _612)
    goto __BB613;
  else
    goto __BB613;

  __BB(613):
  _613 = __PHI (__BB612: _612);
  if (_613 != _613)
    goto __BB614;
  else
    goto __BB614;

  __BB(614):
  _614 = __PHI (__BB613: _613);
  if (_614 != _614)
    goto __BB615;
  else
    goto __BB615;

  __BB(615):
  _615 = __PHI (__BB614: _614);
  if (_615 != _615)
    goto __BB616;
  else
    goto __BB616;

  __BB(616):
  _616 = __PHI (__BB615: _615);
  if (_616 != _616)
    goto __BB617;
  else
    goto __BB617;

  __BB(617):
  _617 = __PHI (__BB616: _616);
  if (_617 != _617)
    goto __BB618;
  else
    goto __BB618;

  __BB(618):
  _618 = __PHI (__BB617: _617);
  if (_618 != _618)
    goto __BB619;
  else
    goto __BB619;

  __BB(619):
  _619 = __PHI (__BB618: _618);
  if (_619 != _619)
    goto __BB620;
  else
    goto __BB620;

  __BB(620):
  _620 = __PHI (__BB619: _619);
  if (_620 != _620)
    goto __BB621;
  else
    goto __BB621;

  __BB(621):
  _621 = __PHI (__BB620: _620);
  if (_621 != _621)
    goto __BB622;
  else
    goto __BB622;

  __BB(622):
  _622 = __PHI (__BB621: _621);
  if (_622 != _622)
    goto __BB623;
  else
    goto __BB623;

  __BB(623):
  _623 = __PHI (__BB622: _622);
  if (_623 != _623)
    goto __BB624;
  else
    goto __BB624;

  __BB(624):
  _624 = __PHI (__BB623: _623);
  if (_624 != _624)
    goto __BB625;
  else
    goto __BB625;

  __BB(625):
  _625 = __PHI (__BB624: _624);
  if (_625 != _625)
    goto __BB626;
  else
    goto __BB626;

  __BB(626):
  _626 = __PHI (__BB625: _625);
  if (_626 != _626)
    goto __BB627;
  else
    goto __BB627;

  __BB(627):
  _627 = __PHI (__BB626: _626);
  if (_627 != _627)
    goto __BB628;
  else
    goto __BB628;

  __BB(628):
  _628 = __PHI (__BB627: _627);
  if (_628 != _628)
    goto __BB629;
  else
    goto __BB629;

  __BB(629):
  _629 = __PHI (__BB628: _628);
  if (_629 != _629)
    goto __BB630;
  else
    goto __BB630;

  __BB(630):
  _630 = __PHI (__BB629: _629);
  if (_630 != _630)
    goto __BB631;
  else
    goto __BB631;

  __BB(631):
  _631 = __PHI (__BB630: _630);
  if (_631 != _631)
    goto __BB632;
  else
    goto __BB632;

  __BB(632):
  _632 = __PHI (__BB631: _631);
  if (_632 != _632)
    goto __BB633;
  else
    goto __BB633;

  __BB(633):
  _633 = __PHI (__BB632: _632);
  if (_633 != _633)
    goto __BB634;
  else
    goto __BB634;

  __BB(634):
  _634 = __PHI (__BB633: _633);
  if (_634 != _634)
    goto __BB635;
  else
    goto __BB635;

  __BB(635):
  _635 = __PHI (__BB634: _634);
  if (_635 != _635)
    goto __BB636;
  else
    goto __BB636;

  __BB(636):
  _636 = __PHI (__BB635: _635);
  if (_636 != _636)
    goto __BB637;
  else
    goto __BB637;

  __BB(637):
  _637 = __PHI (__BB636: _636);
  if (_637 != _637)
    goto __BB638;
  else
    goto __BB638;

  __BB(638):
  _638 = __PHI (__BB637: _637);
  if (_638 != _638)
    goto __BB639;
  else
    goto __BB639;

  __BB(639):
  _639 = __PHI (__BB638: _638);
  if (_639 != _639)
    goto __BB640;
  else
    goto __BB640;

  __BB(640):
  _640 = __PHI (__BB639: _639);
  if (_640 != _640)
    goto __BB641;
  else
    goto __BB641;

  __BB(641):
  _641 = __PHI (__BB640: _640);
  if (_641 != _641)
    goto __BB642;
  else
    goto __BB642;

  __BB(642):
  _642 = __PHI (__BB641: _641);
  if (_642 != _642)
    goto __BB643;
  else
    goto __BB643;

  __BB(643):
  _643 = __PHI (__BB642: _642);
  if (_643 != _643)
    goto __BB644;
  else
    goto __BB644;

  __BB(644):
  _644 = __PHI (__BB643: _643);
  if (_644 != _644)
    goto __BB645;
  else
    goto __BB645;

  __BB(645):
  _645 = __PHI (__BB644: _644);
  if (_645 != _645)
    goto __BB646;
  else
    goto __BB646;

  __BB(646):
  _646 = __PHI (__BB645: _645);
  if (_646 != _646)
    goto __BB647;
  else
    goto __BB647;

  __BB(647):
  _647 = __PHI (__BB646: _646);
  if (_647 != _647)
    goto __BB648;
  else
    goto __BB648;

  __BB(648):
  _648 = __PHI (__BB647: _647);
  if (_648 != _648)
    goto __BB649;
  else
    goto __BB649;

  __BB(649):
  _649 = __PHI (__BB648: _648);
  if (_649 != _649)
    goto __BB650;
  else
    goto __BB650;

  __BB(650):
  _650 = __PHI (__BB649: _649);
  if (_650 != _650)
    goto __BB651;
  else
    goto __BB651;

  __BB(651):
  _651 = __PHI (__BB650: _650);
  if (_651 != _651)
    goto __BB652;
  else
    goto __BB652;

  __BB(652):
  _652 = __PHI (__BB651: _651);
  if (_652 != _652)
    goto __BB653;
  else
    goto __BB653;

  __BB(653):
  _653 = __PHI (__BB652: _652);
  if (_653 != _653)
    goto __BB654;
  else
    goto __BB654;

  __BB(654):
  _654 = __PHI (__BB653: _653);
  if (_654 != _654)
    goto __BB655;
  else
    goto __BB655;

  __BB(655):
  _655 = __PHI (__BB654: _654);
  if (_655 != _655)
    goto __BB656;
  else
    goto __BB656;

  __BB(656):
  _656 = __PHI (__BB655: _655);
  if (_656 != _656)
    goto __BB657;
  else
    goto __BB657;

  __BB(657):
  _657 = __PHI (__BB656: _656);
  if (_657 != _657)
    goto __BB658;
  else
    goto __BB658;

  __BB(658):
  _658 = __PHI (__BB657: _657);
  if (_658 != _658)
    goto __BB659;
  else
    goto __BB659;

  __BB(659):
  _659 = __PHI (__BB658: _658);
  if (_659 != _659)
    goto __BB660;
  else
    goto __BB660;

  __BB(660):
  _660 = __PHI (__BB659: _659);
  if (_660 != _660)
    goto __BB661;
  else
    goto __BB661;

  __BB(661):
  _661 = __PHI (__BB660: _660);
  if (_661 != _661)
    goto __BB662;
  else
    goto __BB662;

  __BB(662):
  _662 = __PHI (__BB661: _661);
  if (_662 != _662)
    goto __BB663;
  else
    goto __BB663;

  __BB(663):
  _663 = __PHI (__BB662: _662);
  if (_663 != _663)
    goto __BB664;
  else
    goto __BB664;

  __BB(664):
  _664 = __PHI (__BB663: _663);
  if (_664 != _664)
    goto __BB665;
  else
    goto __BB665;

  __BB(665):
  _665 = __PHI (__BB664: _664);
  if (_665 != _665)
    goto __BB666;
  else
    goto __BB666;

  __BB(666):
  _666 = __PHI (__BB665: _665);
  if (_666 != _666)
    goto __BB667;
  else
    goto __BB667;

  __BB(667):
  _667 = __PHI (__BB666: _666);
  if (_667 != _667)
    goto __BB668;
  else
    goto __BB668;

  __BB(668):
  _668 = __PHI (__BB667: _667);
  if (_668 != _668)
    goto __BB669;
  else
    goto __BB669;

  __BB(669):
  _669 = __PHI (__BB668: _668);
  if (_669 != _669)
    goto __BB670;
  else
    goto __BB670;

  __BB(670):
  _670 = __PHI (__BB669: _669);
  if (_670 != _670)
    goto __BB671;
  else
    goto __BB671;

  __BB(671):
  _671 = __PHI (__BB670: _670);
  if (_671 != _671)
    goto __BB672;
  else
    goto __BB672;

  __BB(672):
  _672 = __PHI (__BB671: _671);
  if (_672 != _672)
    goto __BB673;
  else
    goto __BB673;

  __BB(673):
  _673 = __PHI (__BB672: _672);
  if (_673 != _673)
    goto __BB674;
  else
    goto __BB674;

  __BB(674):
  _674 = __PHI (__BB673: _673);
  if (_674 != _674)
    goto __BB675;
  else
    goto __BB675;

  __BB(675):
  _675 = __PHI (__BB674: _674);
  if (_675 != _675)
    goto __BB676;
  else
    goto __BB676;

  __BB(676):
  _676 = __PHI (__BB675: _675);
  if (_676 != _676)
    goto __BB677;
  else
    goto __BB677;

  __BB(677):
  _677 = __PHI (__BB676: _676);
  if (_677 != _677)
    goto __BB678;
  else
    goto __BB678;

  __BB(678):
  _678 = __PHI (__BB677: _677);
  if (_678 != _678)
    goto __BB679;
  else
    goto __BB679;

  __BB(679):
  _679 = __PHI (__BB678: _678);
  if (_679 != _679)
    goto __BB680;
  else
    goto __BB680;

  __BB(680):
  _680 = __PHI (__BB679: _679);
  if (_680 != _680)
    goto __BB681;
  else
    goto __BB681;

  __BB(681):
  _681 = __PHI (__BB680: _680);
  if (_681 != _681)
    goto __BB682;
  else
    goto __BB682;

  __BB(682):
  _682 = __PHI (__BB681: _681);
  if (_682 != _682)
    goto __BB683;
  else
    goto __BB683;

  __BB(683):
  _683 = __PHI (__BB682: _682);
  if (_683 != _683)
    goto __BB684;
  else
    goto __BB684;

  __BB(684):
  _684 = __PHI (__BB683: _683);
  if (_684 != _684)
    goto __BB685;
  else
    goto __BB685;

  __BB(685):
  _685 = __PHI (__BB684: _684);
  if (_685 != _685)
    goto __BB686;
  else
    goto __BB686;

  __BB(686):
  _686 = __PHI (__BB685: _685);
  if (_686 != _686)
    goto __BB687;
  else
    goto __BB687;

  __BB(687):
  _687 = __PHI (__BB686: _686);
  if (_687 != _687)
    goto __BB688;
  else
    goto __BB688;

  __BB(688):
  _688 = __PHI (__BB687: _687);
  if (_688 != _688)
    goto __BB689;
  else
    goto __BB689;

  __BB(689):
  _689 = __PHI (__BB688: _688);
  if (_689 != _689)
    goto __BB690;
  else
    goto __BB690;

  __BB(690):
  _690 = __PHI (__BB689: _689);
  if (_690 != _690)
    goto __BB691;
  else
    goto __BB691;

  __BB(691):
  _691 = __PHI (__BB690: _690);
  if (_691 != _691)
    goto __BB692;
  else
    goto __BB692;

  __BB(692):
  _692 = __PHI (__BB691: _691);
  if (_692 != _692)
    goto __BB693;
  else
    goto __BB693;

  __BB(693):
  _693 = __PHI (__BB692: _692);
  if (_693 != _693)
    goto __BB694;
  else
    goto __BB694;

  __BB(694):
  _694 = __PHI (__BB693: _693);
  if (_694 != _694)
    goto __BB695;
  else
    goto __BB695;

  __BB(695):
  _695 = __PHI (__BB694: _694);
  if (_695 != _695)
    goto __BB696;
  else
    goto __BB696;

  __BB(696):
  _696 = __PHI (__BB695: _695);
  if (_696 != _696)
    goto __BB697;
  else
    goto __BB697;

  __BB(697):
  _697 = __PHI (__BB696: _696);
  if (_697 != _697)
    goto __BB698;
  else
    goto __BB698;

  __BB(698):
  _698 = __PHI (__BB697: _697);
  if (_698 != _698)
    goto __BB699;
  else
    goto __BB699;

  __BB(699):
  _699 = __PHI (__BB698: _698);
  if (_699 != _699)
    goto __BB700;
  else
    goto __BB700;

  __BB(700):
  _700 = __PHI (__BB699: _699);
  if (_700 != _700)
    goto __BB701;
  else
    goto __BB701;

  __BB(701):
  _701 = __PHI (__BB700: _700);
  if (_701 != _701)
    goto __BB702;
  else
    goto __BB702;

  __BB(702):
  _702 = __PHI (__BB701: _701);
  if (_702 != _702)
    goto __BB703;
  else
    goto __BB703;

  __BB(703):
  _703 = __PHI (__BB702: _702);
  if (_703 != _703)
    goto __BB704;
  else
    goto __BB704;

  __BB(704):
  _704 = __PHI (__BB703: _703);
  if (_704 != _704)
    goto __BB705;
  else
    goto __BB705;

  __BB(705):
  _705 = __PHI (__BB704: _704);
  if (_705 != _705)
    goto __BB706;
  else
    goto __BB706;

  __BB(706):
  _706 = __PHI (__BB705: _705);
  if (_706 != _706)
    goto __BB707;
  else
    goto __BB707;

  __BB(707):
  _707 = __PHI (__BB706: _706);
  if (_707 != _707)
    goto __BB708;
  else
    goto __BB708;

  __BB(708):
  _708 = __PHI (__BB707: _707);
  if (_708 != _708)
    goto __BB709;
  else
    goto __BB709;

  __BB(709):
  _709 = __PHI (__BB708: _708);
  if (_709 != _709)
    goto __BB710;
  else
    goto __BB710;

  __BB(710):
  _710 = __PHI (__BB709: _709);
  if (_710 != _710)
    goto __BB711;
  else
    goto __BB711;

  __BB(711):
  _711 = __PHI (__BB710: _710);
  if (_711 != _711)
    goto __BB712;
  else
    goto __BB712;

  __BB(712):
  _712 = __PHI (__BB711: _711);
  if (_712 != _712)
    goto __BB713;
  else
    goto __BB713;

  __BB(713):
  _713 = __PHI (__BB712: _712);
  if (_713 != _713)
    goto __BB714;
  else
    goto __BB714;

  __BB(714):
  _714 = __PHI (__BB713: _713);
  if (_714 != _714)
    goto __BB715;
  else
    goto __BB715;

  __BB(715):
  _715 = __PHI (__BB714: _714);
  if (_715 != _715)
    goto __BB716;
  else
    goto __BB716;

  __BB(716):
  _716 = __PHI (__BB715: _715);
  if (_716 != _716)
    goto __BB717;
  else
    goto __BB717;

  __BB(717):
  _717 = __PHI (__BB716: _716);
  if (_717 != _717)
    goto __BB718;
  else
    goto __BB718;

  __BB(718):
  _718 = __PHI (__BB717: _717);
  if (_718 != _718)
    goto __BB719;
  else
    goto __BB719;

  __BB(719):
  _719 = __PHI (__BB718: _718);
  if (_719 != _719)
    goto __BB720;
  else
    goto __BB720;

  __BB(720):
  _720 = __PHI (__BB719: _719);
  if (_720 != _720)
    goto __BB721;
  else
    goto __BB721;

  __BB(721):
  _721 = __PHI (__BB720: _720);
  if (_721 != _721)
    goto __BB722;
  else
    goto __BB722;

  __BB(722):
  _722 = __PHI (__BB721: _721);
  if (_722 != _722)
    goto __BB723;
  else
    goto __BB723;

  __BB(723):
  _723 = __PHI (__BB722: _722);
  if (_723 != _723)
    goto __BB724;
  else
    goto __BB724;

  __BB(724):
  _724 = __PHI (__BB723: _723);
  if (_724 != _724)
    goto __BB725;
  else
    goto __BB725;

  __BB(725):
  _725 = __PHI (__BB724: _724);
  if (_725 != _725)
    goto __BB726;
  else
    goto __BB726;

  __BB(726):
  _726 = __PHI (__BB725: _725);
  if (_726 != _726)
    goto __BB727;
  else
    goto __BB727;

  __BB(727):
  _727 = __PHI (__BB726: _726);
  if (_727 != _727)
    goto __BB728;
  else
    goto __BB728;

  __BB(728):
  _728 = __PHI (__BB727: _727);
  if (_728 != _728)
    goto __BB729;
  else
    goto __BB729;

  __BB(729):
  _729 = __PHI (__BB728: _728);
  if (_729 != _729)
    goto __BB730;
  else
    goto __BB730;

  __BB(730):
  _730 = __PHI (__BB729: _729);
  if (_730 != _730)
    goto __BB731;
  else
    goto __BB731;

  __BB(731):
  _731 = __PHI (__BB730: _730);
  if (_731 != _731)
    goto __BB732;
  else
    goto __BB732;

  __BB(732):
  _732 = __PHI (__BB731: _731);
  if (_732 != _732)
    goto __BB733;
  else
    goto __BB733;

  __BB(733):
  _733 = __PHI (__BB732: _732);
  if (_733 != _733)
    goto __BB734;
  else
    goto __BB734;

  __BB(734):
  _734 = __PHI (__BB733: _733);
  if (_734 != _734)
    goto __BB735;
  else
    goto __BB735;

  __BB(735):
  _735 = __PHI (__BB734: _734);
  if (_735 != _735)
    goto __BB736;
  else
    goto __BB736;

  __BB(736):
  _736 = __PHI (__BB735: _735);
  if (_736 != _736)
    goto __BB737;
  else
    goto __BB737;

  __BB(737):
  _737 = __PHI (__BB736: _736);
  if (_737 != _737)
    goto __BB738;
  else
    goto __BB738;

  __BB(738):
  _738 = __PHI (__BB737: _737);
  if (_738 != _738)
    goto __BB739;
  else
    goto __BB739;

  __BB(739):
  _739 = __PHI (__BB738: _738);
  if (_739 != _739)
    goto __BB740;
  else
    goto __BB740;

  __BB(740):
  _740 = __PHI (__BB739: _739);
  if (_740 != _740)
    goto __BB741;
  else
    goto __BB741;

  __BB(741):
  _741 = __PHI (__BB740: _740);
  if (_741 != _741)
    goto __BB742;
  else
    goto __BB742;

  __BB(742):
  _742 = __PHI (__BB741: _741);
  if (_742 != _742)
    goto __BB743;
  else
    goto __BB743;

  __BB(743):
  _743 = __PHI (__BB742: _742);
  if (_743 != _743)
    goto __BB744;
  else
    goto __BB744;

  __BB(744):
  _744 = __PHI (__BB743: _743);
  if (_744 != _744)
    goto __BB745;
  else
    goto __BB745;

  __BB(745):
  _745 = __PHI (__BB744: _744);
  if (_745 != _745)
    goto __BB746;
  else
    goto __BB746;

  __BB(746):
  _746 = __PHI (__BB745: _745);
  if (_746 != _746)
    goto __BB747;
  else
    goto __BB747;

  __BB(747):
  _747 = __PHI (__BB746: _746);
  if (_747 != _747)
    goto __BB748;
  else
    goto __BB748;

  __BB(748):
  _748 = __PHI (__BB747: _747);
  if (_748 != _748)
    goto __BB749;
  else
    goto __BB749;

  __BB(749):
  _749 = __PHI (__BB748: _748);
  if (_749 != _749)
    goto __BB750;
  else
    goto __BB750;

  __BB(750):
  _750 = __PHI (__BB749: _749);
  if (_750 != _750)
    goto __BB751;
  else
    goto __BB751;

  __BB(751):
  _751 = __PHI (__BB750: _750);
  if (_751 != _751)
    goto __BB752;
  else
    goto __BB752;

  __BB(752):
  _752 = __PHI (__BB751: _751);
  if (_752 != _752)
    goto __BB753;
  else
    goto __BB753;

  __BB(753):
  _753 = __PHI (__BB752: _752);
  if (_753 != _753)
    goto __BB754;
  else
    goto __BB754;

  __BB(754):
  _754 = __PHI (__BB753: _753);
  if (_754 != _754)
    goto __BB755;
  else
    goto __BB755;

  __BB(755):
  _755 = __PHI (__BB754: _754);
  if (_755 != _755)
    goto __BB756;
  else
    goto __BB756;

  __BB(756):
  _756 = __PHI (__BB755: _755);
  if (_756 != _756)
    goto __BB757;
  else
    goto __BB757;

  __BB(757):
  _757 = __PHI (__BB756: _756);
  if (_757 != _757)
    goto __BB758;
  else
    goto __BB758;

  __BB(758):
  _758 = __PHI (__BB757: _757);
  if (_758 != _758)
    goto __BB759;
  else
    goto __BB759;

  __BB(759):
  _759 = __PHI (__BB758: _758);
  if (_759 != _759)
    goto __BB760;
  else
    goto __BB760;

  __BB(760):
  _760 = __PHI (__BB759: _759);
  if (_760 != _760)
    goto __BB761;
  else
    goto __BB761;

  __BB(761):
  _761 = __PHI (__BB760: _760);
  if (_761 != _761)
    goto __BB762;
  else
    goto __BB762;

  __BB(762):
  _762 = __PHI (__BB761: _761);
  if (_762 != _762)
    goto __BB763;
  else
    goto __BB763;

  __BB(763):
  _763 = __PHI (__BB762: _762);
  if (_763 != _763)
    goto __BB764;
  else
    goto __BB764;

  __BB(764):
  _764 = __PHI (__BB763: _763);
  if (_764 != _764)
    goto __BB765;
  else
    goto __BB765;

  __BB(765):
  _765 = __PHI (__BB764: _764);
  if (_765 != _765)
    goto __BB766;
  else
    goto __BB766;

  __BB(766):
  _766 = __PHI (__BB765: _765);
  if (_766 != _766)
    goto __BB767;
  else
    goto __BB767;

  __BB(767):
  _767 = __PHI (__BB766: _766);
  if (_767 != _767)
    goto __BB768;
  else
    goto __BB768;

  __BB(768):
  _768 = __PHI (__BB767: _767);
  if (_768 != _768)
    goto __BB769;
  else
    goto __BB769;

  __BB(769):
  _769 = __PHI (__BB768: _768);
  if (_769 != _769)
    goto __BB770;
  else
    goto __BB770;

  __BB(770):
  _770 = __PHI (__BB769: _769);
  if (_770 != _770)
    goto __BB771;
  else
    goto __BB771;

  __BB(771):
  _771 = __PHI (__BB770: _770);
  if (_771 != _771)
    goto __BB772;
  else
    goto __BB772;

  __BB(772):
  _772 = __PHI (__BB771: _771);
  if (_772 != _772)
    goto __BB773;
  else
    goto __BB773;

  __BB(773):
  _773 = __PHI (__BB772: _772);
  if (_773 != _773)
    goto __BB774;
  else
    goto __BB774;

  __BB(774):
  _774 = __PHI (__BB773: _773);
  if (_774 != _774)
    goto __BB775;
  else
    goto __BB775;

  __BB(775):
  _775 = __PHI (__BB774: _774);
  if (_775 != _775)
    goto __BB776;
  else
    goto __BB776;

  __BB(776):
  _776 = __PHI (__BB775: _775);
  if (_776 != _776)
    goto __BB777;
  else
    goto __BB777;

  __BB(777):
  _777 = __PHI (__BB776: _776);
  if (_777 != _777)
    goto __BB778;
  else
    goto __BB778;

  __BB(778):
  _778 = __PHI (__BB777: _777);
  if (_778 != _778)
    goto __BB779;
  else
    goto __BB779;

  __BB(779):
  _779 = __PHI (__BB778: _778);
  if (_779 != _779)
    goto __BB780;
  else
    goto __BB780;

  __BB(780):
  _780 = __PHI (__BB779: _779);
  if (_780 != _780)
    goto __BB781;
  else
    goto __BB781;

  __BB(781):
  _781 = __PHI (__BB780: _780);
  if (_781 != _781)
    goto __BB782;
  else
    goto __BB782;

  __BB(782):
  _782 = __PHI (__BB781: _781);
  if (_782 != _782)
    goto __BB783;
  else
    goto __BB783;

  __BB(783):
  _783 = __PHI (__BB782: _782);
  if (_783 != _783)
    goto __BB784;
  else
    goto __BB784;

  __BB(784):
  _784 = __PHI (__BB783: _783);
  if (_784 != _784)
    goto __BB785;
  else
    goto __BB785;

  __BB(785):
  _785 = __PHI (__BB784: _784);
  if (_785 != _785)
    goto __BB786;
  else
    goto __BB786;

  __BB(786):
  _786 = __PHI (__BB785: _785);
  if (_786 != _786)
    goto __BB787;
  else
    goto __BB787;

  __BB(787):
  _787 = __PHI (__BB786: _786);
  if (_787 != _787)
    goto __BB788;
  else
    goto __BB788;

  __BB(788):
  _788 = __PHI (__BB787: _787);
  if (_788 != _788)
    goto __BB789;
  else
    goto __BB789;

  __BB(789):
  _789 = __PHI (__BB788: _788);
  if (_789 != _789)
    goto __BB790;
  else
    goto __BB790;

  __BB(790):
  _790 = __PHI (__BB789: _789);
  if (_790 != _790)
    goto __BB791;
  else
    goto __BB791;

  __BB(791):
  _791 = __PHI (__BB790: _790);
  if (_791 != _791)
    goto __BB792;
  else
    goto __BB792;

  __BB(792):
  _792 = __PHI (__BB791: _791);
  if (_792 != _792)
    goto __BB793;
  else
    goto __BB793;

  __BB(793):
  _793 = __PHI (__BB792: _792);
  if (_793 != _793)
    goto __BB794;
  else
    goto __BB794;

  __BB(794):
  _794 = __PHI (__BB793: _793);
  if (_794 != _794)
    goto __BB795;
  else
    goto __BB795;

  __BB(795):
  _795 = __PHI (__BB794: _794);
  if (_795 != _795)
    goto __BB796;
  else
    goto __BB796;

  __BB(796):
  _796 = __PHI (__BB795: _795);
  if (_796 != _796)
    goto __BB797;
  else
    goto __BB797;

  __BB(797):
  _797 = __PHI (__BB796: _796);
  if (_797 != _797)
    goto __BB798;
  else
    goto __BB798;

  __BB(798):
  _798 = __PHI (__BB797: _797);
  if (_798 != _798)
    goto __BB799;
  else
    goto __BB799;

  __BB(799):
  _799 = __PHI (__BB798: _798);
  if (_799 != _799)
    goto __BB800;
  else
    goto __BB800;

  __BB(800):
  _800 = __PHI (__BB799: _799);
  if (_800 != _800)
    goto __BB801;
  else
    goto __BB801;

  __BB(801):
  _801 = __PHI (__BB800: _800);
  if (_801 != _801)
    goto __BB802;
  else
    goto __BB802;

  __BB(802):
  _802 = __PHI (__BB801: _801);
  if (_802 != _802)
    goto __BB803;
  else
    goto __BB803;

  __BB(803):
  _803 = __PHI (__BB802: _802);
  if (_803 != _803)
    goto __BB804;
  else
    goto __BB804;

  __BB(804):
  _804 = __PHI (__BB803: _803);
  if (_804 != _804)
    goto __BB805;
  else
    goto __BB805;

  __BB(805):
  _805 = __PHI (__BB804: _804);
  if (_805 != _805)
    goto __BB806;
  else
    goto __BB806;

  __BB(806):
  _806 = __PHI (__BB805: _805);
  if (_806 != _806)
    goto __BB807;
  else
    goto __BB807;

  __BB(807):
  _807 = __PHI (__BB806: _806);
  if (_807 != _807)
    goto __BB808;
  else
    goto __BB808;

  __BB(808):
  _808 = __PHI (__BB807: _807);
  if (_808 != _808)
    goto __BB809;
  else
    goto __BB809;

  __BB(809):
  _809 = __PHI (__BB808: _808);
  if (_809 != _809)
    goto __BB810;
  else
    goto __BB810;

  __BB(810):
  _810 = __PHI (__BB809: _809);
  if (_810 != _810)
    goto __BB811;
  else
    goto __BB811;

  __BB(811):
  _811 = __PHI (__BB810: _810);
  if (_811 != _811)
    goto __BB812;
  else
    goto __BB812;

  __BB(812):
  _812 = __PHI (__BB811: _811);
  if (_812 != _812)
    goto __BB813;
  else
    goto __BB813;

  __BB(813):
  _813 = __PHI (__BB812: _812);
  if (_813 != _813)
    goto __BB814;
  else
    goto __BB814;

  __BB(814):
  _814 = __PHI (__BB813: _813);
  if (_814 != _814)
    goto __BB815;
  else
    goto __BB815;

  __BB(815):
  _815 = __PHI (__BB814: _814);
  if (_815 != _815)
    goto __BB816;
  else
    goto __BB816;

  __BB(816):
  _816 = __PHI (__BB815: _815);
  if (_816 != _816)
    goto __BB817;
  else
    goto __BB817;

  __BB(817):
  _817 = __PHI (__BB816: _816);
  if (_817 != _817)
    goto __BB818;
  else
    goto __BB818;

  __BB(818):
  _818 = __PHI (__BB817: _817);
  if (_818 != _818)
    goto __BB819;
  else
    goto __BB819;

  __BB(819):
  _819 = __PHI (__BB818: _818);
  if (_819 != _819)
    goto __BB820;
  else
    goto __BB820;

  __BB(820):
  _820 = __PHI (__BB819: _819);
  if (_820 != _820)
    goto __BB821;
  else
    goto __BB821;

  __BB(821):
  _821 = __PHI (__BB820: _820);
  if (_821 != _821)
    goto __BB822;
  else
    goto __BB822;

  __BB(822):
  _822 = __PHI (__BB821: _821);
  if (_822 != _822)
    goto __BB823;
  else
    goto __BB823;

  __BB(823):
  _823 = __PHI (__BB822: _822);
  if (_823 != _823)
    goto __BB824;
  else
    goto __BB824;

  __BB(824):
  _824 = __PHI (__BB823: _823);
  if (_824 != _824)
    goto __BB825;
  else
    goto __BB825;

  __BB(825):
  _825 = __PHI (__BB824: _824);
  if (_825 != _825)
    goto __BB826;
  else
    goto __BB826;

  __BB(826):
  _826 = __PHI (__BB825: _825);
  if (_826 != _826)
    goto __BB827;
  else
    goto __BB827;

  __BB(827):
  _827 = __PHI (__BB826: _826);
  if (_827 != _827)
    goto __BB828;
  else
    goto __BB828;

  __BB(828):
  _828 = __PHI (__BB827: _827);
  if (_828 != _828)
    goto __BB829;
  else
    goto __BB829;

  __BB(829):
  _829 = __PHI (__BB828: _828);
  if (_829 != _829)
    goto __BB830;
  else
    goto __BB830;

  __BB(830):
  _830 = __PHI (__BB829: _829);
  if (_830 != _830)
    goto __BB831;
  else
    goto __BB831;

  __BB(831):
  _831 = __PHI (__BB830: _830);
  if (_831 != _831)
    goto __BB832;
  else
    goto __BB832;

  __BB(832):
  _832 = __PHI (__BB831: _831);
  if (_832 != _832)
    goto __BB833;
  else
    goto __BB833;

  __BB(833):
  _833 = __PHI (__BB832: _832);
  if (_833 != _833)
    goto __BB834;
  else
    goto __BB834;

  __BB(834):
  _834 = __PHI (__BB833: _833);
  if (_834 != _834)
    goto __BB835;
  else
    goto __BB835;

  __BB(835):
  _835 = __PHI (__BB834: _834);
  if (_835 != _835)
    goto __BB836;
  else
    goto __BB836;

  __BB(836):
  _836 = __PHI (__BB835: _835);
  if (_836 != _836)
    goto __BB837;
  else
    goto __BB837;

  __BB(837):
  _837 = __PHI (__BB836: _836);
  if (_837 != _837)
    goto __BB838;
  else
    goto __BB838;

  __BB(838):
  _838 = __PHI (__BB837: _837);
  if (_838 != _838)
    goto __BB839;
  else
    goto __BB839;

  __BB(839):
  _839 = __PHI (__BB838: _838);
  if (_839 != _839)
    goto __BB840;
  else
    goto __BB840;

  __BB(840):
  _840 = __PHI (__BB839: _839);
  if (_840 != _840)
    goto __BB841;
  else
    goto __BB841;

  __BB(841):
  _841 = __PHI (__BB840: _840);
  if (_841 != _841)
    goto __BB842;
  else
    goto __BB842;

  __BB(842):
  _842 = __PHI (__BB841: _841);
  if (_842 != _842)
    goto __BB843;
  else
    goto __BB843;

  __BB(843):
  _843 = __PHI (__BB842: _842);
  if (_843 != _843)
    goto __BB844;
  else
    goto __BB844;

  __BB(844):
  _844 = __PHI (__BB843: _843);
  if (_844 != _844)
    goto __BB845;
  else
    goto __BB845;

  __BB(845):
  _845 = __PHI (__BB844: _844);
  if (_845 != _845)
    goto __BB846;
  else
    goto __BB846;

  __BB(846):
  _846 = __PHI (__BB845: _845);
  if (_846 != _846)
    goto __BB847;
  else
    goto __BB847;

  __BB(847):
  _847 = __PHI (__BB846: _846);
  if (_847 != _847)
    goto __BB848;
  else
    goto __BB848;

  __BB(848):
  _848 = __PHI (__BB847: _847);
  if (_848 != _848)
    goto __BB849;
  else
    goto __BB849;

  __BB(849):
  _849 = __PHI (__BB848: _848);
  if (_849 != _849)
    goto __BB850;
  else
    goto __BB850;

  __BB(850):
  _850 = __PHI (__BB849: _849);
  if (_850 != _850)
    goto __BB851;
  else
    goto __BB851;

  __BB(851):
  _851 = __PHI (__BB850: _850);
  if (_851 != _851)
    goto __BB852;
  else
    goto __BB852;

  __BB(852):
  _852 = __PHI (__BB851: _851);
  if (_852 != _852)
    goto __BB853;
  else
    goto __BB853;

  __BB(853):
  _853 = __PHI (__BB852: _852);
  if (_853 != _853)
    goto __BB854;
  else
    goto __BB854;

  __BB(854):
  _854 = __PHI (__BB853: _853);
  if (_854 != _854)
    goto __BB855;
  else
    goto __BB855;

  __BB(855):
  _855 = __PHI (__BB854: _854);
  if (_855 != _855)
    goto __BB856;
  else
    goto __BB856;

  __BB(856):
  _856 = __PHI (__BB855: _855);
  if (_856 != _856)
    goto __BB857;
  else
    goto __BB857;

  __BB(857):
  _857 = __PHI (__BB856: _856);
  if (_857 != _857)
    goto __BB858;
  else
    goto __BB858;

  __BB(858):
  _858 = __PHI (__BB857: _857);
  if (_858 != _858)
    goto __BB859;
  else
    goto __BB859;

  __BB(859):
  _859 = __PHI (__BB858: _858);
  if (_859 != _859)
    goto __BB860;
  else
    goto __BB860;

  __BB(860):
  _860 = __PHI (__BB859: _859);
  if (_860 != _860)
    goto __BB861;
  else
    goto __BB861;

  __BB(861):
  _861 = __PHI (__BB860: _860);
  if (_861 != _861)
    goto __BB862;
  else
    goto __BB862;

  __BB(862):
  _862 = __PHI (__BB861: _861);
  if (_862 != _862)
    goto __BB863;
  else
    goto __BB863;

  __BB(863):
  _863 = __PHI (__BB862: _862);
  if (_863 != _863)
    goto __BB864;
  else
    goto __BB864;

  __BB(864):
  _864 = __PHI (__BB863: _863);
  if (_864 != _864)
    goto __BB865;
  else
    goto __BB865;

  __BB(865):
  _865 = __PHI (__BB864: _864);
  if (_865 != _865)
    goto __BB866;
  else
    goto __BB866;

  __BB(866):
  _866 = __PHI (__BB865: _865);
  if (_866 != _866)
    goto __BB867;
  else
    goto __BB867;

  __BB(867):
  _867 = __PHI (__BB866: _866);
  if (_867 != _867)
    goto __BB868;
  else
    goto __BB868;

  __BB(868):
  _868 = __PHI (__BB867: _867);
  if (_868 != _868)
    goto __BB869;
  else
    goto __BB869;

  __BB(869):
  _869 = __PHI (__BB868: _868);
  if (_869 != _869)
    goto __BB870;
  else
    goto __BB870;

  __BB(870):
  _870 = __PHI (__BB869: _869);
  if (_870 != _870)
    goto __BB871;
  else
    goto __BB871;

  __BB(871):
  _871 = __PHI (__BB870: _870);
  if (_871 != _871)
    goto __BB872;
  else
    goto __BB872;

  __BB(872):
  _872 = __PHI (__BB871: _871);
  if (_872 != _872)
    goto __BB873;
  else
    goto __BB873;

  __BB(873):
  _873 = __PHI (__BB872: _872);
  if (_873 != _873)
    goto __BB874;
  else
    goto __BB874;

  __BB(874):
  _874 = __PHI (__BB873: _873);
  if (_874 != _874)
    goto __BB875;
  else
    goto __BB875;

  __BB(875):
  _875 = __PHI (__BB874: _874);
  if (_875 != _875)
    goto __BB876;
  else
    goto __BB876;

  __BB(876):
  _876 = __PHI (__BB875: _875);
  if (_876 != _876)
    goto __BB877;
  else
    goto __BB877;

  __BB(877):
  _877 = __PHI (__BB876: _876);
  if (_877 != _877)
    goto __BB878;
  else
    goto __BB878;

  __BB(878):
  _878 = __PHI (__BB877: _877);
  if (_878 != _878)
    goto __BB879;
  else
    goto __BB879;

  __BB(879):
  _879 = __PHI (__BB878: _878);
  if (_879 != _879)
    goto __BB880;
  else
    goto __BB880;

  __BB(880):
  _880 = __PHI (__BB879: _879);
  if (_880 != _880)
    goto __BB881;
  else
    goto __BB881;

  __BB(881):
  _881 = __PHI (__BB880: _880);
  if (_881 != _881)
    goto __BB882;
  else
    goto __BB882;

  __BB(882):
  _882 = __PHI (__BB881: _881);
  if (_882 != _882)
    goto __BB883;
  else
    goto __BB883;

  __BB(883):
  _883 = __PHI (__BB882: _882);
  if (_883 != _883)
    goto __BB884;
  else
    goto __BB884;

  __BB(884):
  _884 = __PHI (__BB883: _883);
  if (_884 != _884)
    goto __BB885;
  else
    goto __BB885;

  __BB(885):
  _885 = __PHI (__BB884: _884);
  if (_885 != _885)
    goto __BB886;
  else
    goto __BB886;

  __BB(886):
  _886 = __PHI (__BB885: _885);
  if (_886 != _886)
    goto __BB887;
  else
    goto __BB887;

  __BB(887):
  _887 = __PHI (__BB886: _886);
  if (_887 != _887)
    goto __BB888;
  else
    goto __BB888;

  __BB(888):
  _888 = __PHI (__BB887: _887);
  if (_888 != _888)
    goto __BB889;
  else
    goto __BB889;

  __BB(889):
  _889 = __PHI (__BB888: _888);
  if (_889 != _889)
    goto __BB890;
  else
    goto __BB890;

  __BB(890):
  _890 = __PHI (__BB889: _889);
  if (_890 != _890)
    goto __BB891;
  else
    goto __BB891;

  __BB(891):
  _891 = __PHI (__BB890: _890);
  if (_891 != _891)
    goto __BB892;
  else
    goto __BB892;

  __BB(892):
  _892 = __PHI (__BB891: _891);
  if (_892 != _892)
    goto __BB893;
  else
    goto __BB893;

  __BB(893):
  _893 = __PHI (__BB892: _892);
  if (_893 != _893)
    goto __BB894;
  else
    goto __BB894;

  __BB(894):
  _894 = __PHI (__BB893: _893);
  if (_894 != _894)
    goto __BB895;
  else
    goto __BB895;

  __BB(895):
  _895 = __PHI (__BB894: _894);
  if (_895 != _895)
    goto __BB896;
  else
    goto __BB896;

  __BB(896):
  _896 = __PHI (__BB895: _895);
  if (_896 != _896)
    goto __BB897;
  else
    goto __BB897;

  __BB(897):
  _897 = __PHI (__BB896: _896);
  if (_897 != _897)
    goto __BB898;
  else
    goto __BB898;

  __BB(898):
  _898 = __PHI (__BB897: _897);
  if (_898 != _898)
    goto __BB899;
  else
    goto __BB899;

  __BB(899):
  _899 = __PHI (__BB898: _898);
  if (_899 != _899)
    goto __BB900;
  else
    goto __BB900;

  __BB(900):
  _900 = __PHI (__BB899: _899);
  if (_900 != _900)
    goto __BB901;
  else
    goto __BB901;

  __BB(901):
  _901 = __PHI (__BB900: _900);
  if (_901 != _901)
    goto __BB902;
  else
    goto __BB902;

  __BB(902):
  _902 = __PHI (__BB901: _901);
  if (_902 != _902)
    goto __BB903;
  else
    goto __BB903;

  __BB(903):
  _903 = __PHI (__BB902: _902);
  if (_903 != _903)
    goto __BB904;
  else
    goto __BB904;

  __BB(904):
  _904 = __PHI (__BB903: _903);
  if (_904 != _904)
    goto __BB905;
  else
    goto __BB905;

  __BB(905):
  _905 = __PHI (__BB904: _904);
  if (_905 != _905)
    goto __BB906;
  else
    goto __BB906;

  __BB(906):
  _906 = __PHI (__BB905: _905);
  if (_906 != _906)
    goto __BB907;
  else
    goto __BB907;

  __BB(907):
  _907 = __PHI (__BB906: _906);
  if (_907 != _907)
    goto __BB908;
  else
    goto __BB908;

  __BB(908):
  _908 = __PHI (__BB907: _907);
  if (_908 != _908)
    goto __BB909;
  else
    goto __BB909;

  __BB(909):
  _909 = __PHI (__BB908: _908);
  if (_909 != _909)
    goto __BB910;
  else
    goto __BB910;

  __BB(910):
  _910 = __PHI (__BB909: _909);
  if (_910 != _910)
    goto __BB911;
  else
    goto __BB911;

  __BB(911):
  _911 = __PHI (__BB910: _910);
  if (_911 != _911)
    goto __BB912;
  else
    goto __BB912;

  __BB(912):
  _912 = __PHI (__BB911: _911);
  if (_912 != _912)
    goto __BB913;
  else
    goto __BB913;

  __BB(913):
  _913 = __PHI (__BB912: _912);
  if (_913 != _913)
    goto __BB914;
  else
    goto __BB914;

  __BB(914):
  _914 = __PHI (__BB913: _913);
  if (_914 != _914)
    goto __BB915;
  else
    goto __BB915;

  __BB(915):
  _915 = __PHI (__BB914: _914);
  if (_915 != _915)
    goto __BB916;
  else
    goto __BB916;

  __BB(916):
  _916 = __PHI (__BB915: _915);
  if (_916 != _916)
    goto __BB917;
  else
    goto __BB917;

  __BB(917):
  _917 = __PHI (__BB916: _916);
  if (_917 != _917)
    goto __BB918;
  else
    goto __BB918;

  __BB(918):
  _918 = __PHI (__BB917: _917);
  if (_918 != _918)
    goto __BB919;
  else
    goto __BB919;

  __BB(919):
  _919 = __PHI (__BB918: _918);
  if (_919 != _919)
    goto __BB920;
  else
    goto __BB920;

  __BB(920):
  _920 = __PHI (__BB919: _919);
  if (_920 != _920)
    goto __BB921;
  else
    goto __BB921;

  __BB(921):
  _921 = __PHI (__BB920: _920);
  if (_921 != _921)
    goto __BB922;
  else
    goto __BB922;

  __BB(922):
  _922 = __PHI (__BB921: _921);
  if (_922 != _922)
    goto __BB923;
  else
    goto __BB923;

  __BB(923):
  _923 = __PHI (__BB922: _922);
  if (_923 != _923)
    goto __BB924;
  else
    goto __BB924;

  __BB(924):
  _924 = __PHI (__BB923: _923);
  if (_924 != _924)
    goto __BB925;
  else
    goto __BB925;

  __BB(925):
  _925 = __PHI (__BB924: _924);
  if (_925 != _925)
    goto __BB926;
  else
    goto __BB926;

  __BB(926):
  _926 = __PHI (__BB925: _925);
  if (_926 != _926)
    goto __BB927;
  else
    goto __BB927;

  __BB(927):
  _927 = __PHI (__BB926: _926);
  if (_927 != _927)
    goto __BB928;
  else
    goto __BB928;

  __BB(928):
  _928 = __PHI (__BB927: _927);
  if (_928 != _928)
    goto __BB929;
  else
    goto __BB929;

  __BB(929):
  _929 = __PHI (__BB928: _928);
  if (_929 != _929)
    goto __BB930;
  else
    goto __BB930;

  __BB(930):
  _930 = __PHI (__BB929: _929);
  if (_930 != _930)
    goto __BB931;
  else
    goto __BB931;

  __BB(931):
  _931 = __PHI (__BB930: _930);
  if (_931 != _931)
    goto __BB932;
  else
    goto __BB932;

  __BB(932):
  _932 = __PHI (__BB931: _931);
  if (_932 != _932)
    goto __BB933;
  else
    goto __BB933;

  __BB(933):
  _933 = __PHI (__BB932: _932);
  if (_933 != _933)
    goto __BB934;
  else
    goto __BB934;

  __BB(934):
  _934 = __PHI (__BB933: _933);
  if (_934 != _934)
    goto __BB935;
  else
    goto __BB935;

  __BB(935):
  _935 = __PHI (__BB934: _934);
  if (_935 != _935)
    goto __BB936;
  else
    goto __BB936;

  __BB(936):
  _936 = __PHI (__BB935: _935);
  if (_936 != _936)
    goto __BB937;
  else
    goto __BB937;

  __BB(937):
  _937 = __PHI (__BB936: _936);
  if (_937 != _937)
    goto __BB938;
  else
    goto __BB938;

  __BB(938):
  _938 = __PHI (__BB937: _937);
  if (_938 != _938)
    goto __BB939;
  else
    goto __BB939;

  __BB(939):
  _939 = __PHI (__BB938: _938);
  if (_939 != _939)
    goto __BB940;
  else
    goto __BB940;

  __BB(940):
  _940 = __PHI (__BB939: _939);
  if (_940 != _940)
    goto __BB941;
  else
    goto __BB941;

  __BB(941):
  _941 = __PHI (__BB940: _940);
  if (_941 != _941)
    goto __BB942;
  else
    goto __BB942;

  __BB(942):
  _942 = __PHI (__BB941: _941);
  if (_942 != _942)
    goto __BB943;
  else
    goto __BB943;

  __BB(943):
  _943 = __PHI (__BB942: _942);
  if (_943 != _943)
    goto __BB944;
  else
    goto __BB944;

  __BB(944):
  _944 = __PHI (__BB943: _943);
  if (_944 != _944)
    goto __BB945;
  else
    goto __BB945;

  __BB(945):
  _945 = __PHI (__BB944: _944);
  if (_945 != _945)
    goto __BB946;
  else
    goto __BB946;

  __BB(946):
  _946 = __PHI (__BB945: _945);
  if (_946 != _946)
    goto __BB947;
  else
    goto __BB947;

  __BB(947):
  _947 = __PHI (__BB946: _946);
  if (_947 != _947)
    goto __BB948;
  else
    goto __BB948;

  __BB(948):
  _948 = __PHI (__BB947: _947);
  if (_948 != _948)
    goto __BB949;
  else
    goto __BB949;

  __BB(949):
  _949 = __PHI (__BB948: _948);
  if (_949 != _949)
    goto __BB950;
  else
    goto __BB950;

  __BB(950):
  _950 = __PHI (__BB949: _949);
  if (_950 != _950)
    goto __BB951;
  else
    goto __BB951;

  __BB(951):
  _951 = __PHI (__BB950: _950);
  if (_951 != _951)
    goto __BB952;
  else
    goto __BB952;

  __BB(952):
  _952 = __PHI (__BB951: _951);
  if (_952 != _952)
    goto __BB953;
  else
    goto __BB953;

  __BB(953):
  _953 = __PHI (__BB952: _952);
  if (_953 != _953)
    goto __BB954;
  else
    goto __BB954;

  __BB(954):
  _954 = __PHI (__BB953: _953);
  if (_954 != _954)
    goto __BB955;
  else
    goto __BB955;

  __BB(955):
  _955 = __PHI (__BB954: _954);
  if (_955 != _955)
    goto __BB956;
  else
    goto __BB956;

  __BB(956):
  _956 = __PHI (__BB955: _955);
  if (_956 != _956)
    goto __BB957;
  else
    goto __BB957;

  __BB(957):
  _957 = __PHI (__BB956: _956);
  if (_957 != _957)
    goto __BB958;
  else
    goto __BB958;

  __BB(958):
  _958 = __PHI (__BB957: _957);
  if (_958 != _958)
    goto __BB959;
  else
    goto __BB959;

  __BB(959):
  _959 = __PHI (__BB958: _958);
  if (_959 != _959)
    goto __BB960;
  else
    goto __BB960;

  __BB(960):
  _960 = __PHI (__BB959: _959);
  if (_960 != _960)
    goto __BB961;
  else
    goto __BB961;

  __BB(961):
  _961 = __PHI (__BB960: _960);
  if (_961 != _961)
    goto __BB962;
  else
    goto __BB962;

  __BB(962):
  _962 = __PHI (__BB961: _961);
  if (_962 != _962)
    goto __BB963;
  else
    goto __BB963;

  __BB(963):
  _963 = __PHI (__BB962: _962);
  if (_963 != _963)
    goto __BB964;
  else
    goto __BB964;

  __BB(964):
  _964 = __PHI (__BB963: _963);
  if (_964 != _964)
    goto __BB965;
  else
    goto __BB965;

  __BB(965):
  _965 = __PHI (__BB964: _964);
  if (_965 != _965)
    goto __BB966;
  else
    goto __BB966;

  __BB(966):
  _966 = __PHI (__BB965: _965);
  if (_966 != _966)
    goto __BB967;
  else
    goto __BB967;

  __BB(967):
  _967 = __PHI (__BB966: _966);
  if (_967 != _967)
    goto __BB968;
  else
    goto __BB968;

  __BB(968):
  _968 = __PHI (__BB967: _967);
  if (_968 != _968)
    goto __BB969;
  else
    goto __BB969;

  __BB(969):
  _969 = __PHI (__BB968: _968);
  if (_969 != _969)
    goto __BB970;
  else
    goto __BB970;

  __BB(970):
  _970 = __PHI (__BB969: _969);
  if (_970 != _970)
    goto __BB971;
  else
    goto __BB971;

  __BB(971):
  _971 = __PHI (__BB970: _970);
  if (_971 != _971)
    goto __BB972;
  else
    goto __BB972;

  __BB(972):
  _972 = __PHI (__BB971: _971);
  if (_972 != _972)
    goto __BB973;
  else
    goto __BB973;

  __BB(973):
  _973 = __PHI (__BB972: _972);
  if (_973 != _973)
    goto __BB974;
  else
    goto __BB974;

  __BB(974):
  _974 = __PHI (__BB973: _973);
  if (_974 != _974)
    goto __BB975;
  else
    goto __BB975;

  __BB(975):
  _975 = __PHI (__BB974: _974);
  if (_975 != _975)
    goto __BB976;
  else
    goto __BB976;

  __BB(976):
  _976 = __PHI (__BB975: _975);
  if (_976 != _976)
    goto __BB977;
  else
    goto __BB977;

  __BB(977):
  _977 = __PHI (__BB976: _976);
  if (_977 != _977)
    goto __BB978;
  else
    goto __BB978;

  __BB(978):
  _978 = __PHI (__BB977: _977);
  if (_978 != _978)
    goto __BB979;
  else
    goto __BB979;

  __BB(979):
  _979 = __PHI (__BB978: _978);
  if (_979 != _979)
    goto __BB980;
  else
    goto __BB980;

  __BB(980):
  _980 = __PHI (__BB979: _979);
  if (_980 != _980)
    goto __BB981;
  else
    goto __BB981;

  __BB(981):
  _981 = __PHI (__BB980: _980);
  if (_981 != _981)
    goto __BB982;
  else
    goto __BB982;

  __BB(982):
  _982 = __PHI (__BB981: _981);
  if (_982 != _982)
    goto __BB983;
  else
    goto __BB983;

  __BB(983):
  _983 = __PHI (__BB982: _982);
  if (_983 != _983)
    goto __BB984;
  else
    goto __BB984;

  __BB(984):
  _984 = __PHI (__BB983: _983);
  if (_984 != _984)
    goto __BB985;
  else
    goto __BB985;

  __BB(985):
  _985 = __PHI (__BB984: _984);
  if (_985 != _985)
    goto __BB986;
  else
    goto __BB986;

  __BB(986):
  _986 = __PHI (__BB985: _985);
  if (_986 != _986)
    goto __BB987;
  else
    goto __BB987;

  __BB(987):
  _987 = __PHI (__BB986: _986);
  if (_987 != _987)
    goto __BB988;
  else
    goto __BB988;

  __BB(988):
  _988 = __PHI (__BB987: _987);
  if (_988 != _988)
    goto __BB989;
  else
    goto __BB989;

  __BB(989):
  _989 = __PHI (__BB988: _988);
  if (_989 != _989)
    goto __BB990;
  else
    goto __BB990;

  __BB(990):
  _990 = __PHI (__BB989: _989);
  if (_990 != _990)
    goto __BB991;
  else
    goto __BB991;

  __BB(991):
  _991 = __PHI (__BB990: _990);
  if (_991 != _991)
    goto __BB992;
  else
    goto __BB992;

  __BB(992):
  _992 = __PHI (__BB991: _991);
  if (_992 != _992)
    goto __BB993;
  else
    goto __BB993;

  __BB(993):
  _993 = __PHI (__BB992: _992);
  if (_993 != _993)
    goto __BB994;
  else
    goto __BB994;

  __BB(994):
  _994 = __PHI (__BB993: _993);
  if (_994 != _994)
    goto __BB995;
  else
    goto __BB995;

  __BB(995):
  _995 = __PHI (__BB994: _994);
  if (_995 != _995)
    goto __BB996;
  else
    goto __BB996;

  __BB(996):
  _996 = __PHI (__BB995: _995);
  if (_996 != _996)
    goto __BB997;
  else
    goto __BB997;

  __BB(997):
  _997 = __PHI (__BB996: _996);
  if (_997 != _997)
    goto __BB998;
  else
    goto __BB998;

  __BB(998):
  _998 = __PHI (__BB997: _997);
  if (_998 != _998)
    goto __BB999;
  else
    goto __BB999;

  __BB(999):
  _999 = __PHI (__BB998: _998);
  if (_999 != _999)
    goto __BB1000;
  else
    goto __BB1000;

  __BB(1000):
  _1000 = __PHI (__BB999: _999);
  if (_1000 != _1000)
    goto __BB1001;
  else
    goto __BB1001;

  __BB(1001):
  _1001 = __PHI (__BB1000: _1000);
  if (_1001 != _1001)
    goto __BB1002;
  else
    goto __BB1002;

  __BB(1002):
  _1002 = __PHI (__BB1001: _1001);
  if (_1002 != _1002)
    goto __BB1003;
  else
    goto __BB1003;

  __BB(1003):
  _1003 = __PHI (__BB1002: _1002);
  if (_1003 != _1003)
    goto __BB1004;
  else
    goto __BB1004;

  __BB(1004):
  _1004 = __PHI (__BB1003: _1003);
  if (_1004 != _1004)
    goto __BB1005;
  else
    goto __BB1005;

  __BB(1005):
  _1005 = __PHI (__BB1004: _1004);
  if (_1005 != _1005)
    goto __BB1006;
  else
    goto __BB1006;

  __BB(1006):
  _1006 = __PHI (__BB1005: _1005);
  if (_1006 != _1006)
    goto __BB1007;
  else
    goto __BB1007;

  __BB(1007):
  _1007 = __PHI (__BB1006: _1006);
  if (_1007 != _1007)
    goto __BB1008;
  else
    goto __BB1008;

  __BB(1008):
  _1008 = __PHI (__BB1007: _1007);
  if (_1008 != _1008)
    goto __BB1009;
  else
    goto __BB1009;

  __BB(1009):
  _1009 = __PHI (__BB1008: _1008);
  if (_1009 != _1009)
    goto __BB1010;
  else
    goto __BB1010;

  __BB(1010):
  _1010 = __PHI (__BB1009: _1009);
  if (_1010 != _1010)
    goto __BB1011;
  else
    goto __BB1011;

  __BB(1011):
  _1011 = __PHI (__BB1010: _1010);
  if (_1011 != _1011)
    goto __BB1012;
  else
    goto __BB1012;

  __BB(1012):
  _1012 = __PHI (__BB1011: _1011);
  if (_1012 != _1012)
    goto __BB1013;
  else
    goto __BB1013;

  __BB(1013):
  _1013 = __PHI (__BB1012: _1012);
  if (_1013 != _1013)
    goto __BB1014;
  else
    goto __BB1014;

  __BB(1014):
  _1014 = __PHI (__BB1013: _1013);
  if (_1014 != _1014)
    goto __BB1015;
  else
    goto __BB1015;

  __BB(1015):
  _1015 = __PHI (__BB1014: _1014);
  if (_1015 != _1015)
    goto __BB1016;
  else
    goto __BB1016;

  __BB(1016):
  _1016 = __PHI (__BB1015: _1015);
  if (_1016 != _1016)
    goto __BB1017;
  else
    goto __BB1017;

  __BB(1017):
  _1017 = __PHI (__BB1016: _1016);
  if (_1017 != _1017)
    goto __BB1018;
  else
    goto __BB1018;

  __BB(1018):
  _1018 = __PHI (__BB1017: _1017);
  if (_1018 != _1018)
    goto __BB1019;
  else
    goto __BB1019;

  __BB(1019):
  _1019 = __PHI (__BB1018: _1018);
  if (_1019 != _1019)
    goto __BB1020;
  else
    goto __BB1020;

  __BB(1020):
  _1020 = __PHI (__BB1019: _1019);
  if (_1020 != _1020)
    goto __BB1021;
  else
    goto __BB1021;

  __BB(1021):
  _1021 = __PHI (__BB1020: _1020);
  if (_1021 != _1021)
    goto __BB1022;
  else
    goto __BB1022;

  __BB(1022):
  _1022 = __PHI (__BB1021: _1021);
  if (_1022 != _1022)
    goto __BB1023;
  else
    goto __BB1023;

  __BB(1023):
  _1023 = __PHI (__BB1022: _1022);
  if (_1023 != _1023)
    goto __BB1024;
  else
    goto __BB1024;

  __BB(1024):
  _1024 = __PHI (__BB1023: _1023);
  if (_1024 != _1024)
    goto __BB1025;
  else
    goto __BB1025;

  __BB(1025):
  _1025 = __PHI (__BB1024: _1024);
  if (_1025 != _1025)
    goto __BB1026;
  else
    goto __BB1026;

  __BB(1026):
  _1026 = __PHI (__BB1025: _1025);
  if (_1026 != _1026)
    goto __BB1027;
  else
    goto __BB1027;

  __BB(1027):
  _1027 = __PHI (__BB1026: _1026);
  if (_1027 != _1027)
    goto __BB1028;
  else
    goto __BB1028;

  __BB(1028):
  _1028 = __PHI (__BB1027: _1027);
  if (_1028 != _1028)
    goto __BB1029;
  else
    goto __BB1029;

  __BB(1029):
  _1029 = __PHI (__BB1028: _1028);
  if (_1029 != _1029)
    goto __BB1030;
  else
    goto __BB1030;

  __BB(1030):
  _1030 = __PHI (__BB1029: _1029);
  if (_1030 != _1030)
    goto __BB1031;
  else
    goto __BB1031;

  __BB(1031):
  _1031 = __PHI (__BB1030: _1030);
  if (_1031 != _1031)
    goto __BB1032;
  else
    goto __BB1032;

  __BB(1032):
  _1032 = __PHI (__BB1031: _1031);
  if (_1032 != _1032)
    goto __BB1033;
  else
    goto __BB1033;

  __BB(1033):
  _1033 = __PHI (__BB1032: _1032);
  if (_1033 != _1033)
    goto __BB1034;
  else
    goto __BB1034;

  __BB(1034):
  _1034 = __PHI (__BB1033: _1033);
  if (_1034 != _1034)
    goto __BB1035;
  else
    goto __BB1035;

  __BB(1035):
  _1035 = __PHI (__BB1034: _1034);
  if (_1035 != _1035)
    goto __BB1036;
  else
    goto __BB1036;

  __BB(1036):
  _1036 = __PHI (__BB1035: _1035);
  if (_1036 != _1036)
    goto __BB1037;
  else
    goto __BB1037;

  __BB(1037):
  _1037 = __PHI (__BB1036: _1036);
  if (_1037 != _1037)
    goto __BB1038;
  else
    goto __BB1038;

  __BB(1038):
  _1038 = __PHI (__BB1037: _1037);
  if (_1038 != _1038)
    goto __BB1039;
  else
    goto __BB1039;

  __BB(1039):
  _1039 = __PHI (__BB1038: _1038);
  if (_1039 != _1039)
    goto __BB1040;
  else
    goto __BB1040;

  __BB(1040):
  _1040 = __PHI (__BB1039: _1039);
  if (_1040 != _1040)
    goto __BB1041;
  else
    goto __BB1041;

  __BB(1041):
  _1041 = __PHI (__BB1040: _1040);
  if (_1041 != _1041)
    goto __BB1042;
  else
    goto __BB1042;

  __BB(1042):
  _1042 = __PHI (__BB1041: _1041);
  if (_1042 != _1042)
    goto __BB1043;
  else
    goto __BB1043;

  __BB(1043):
  _1043 = __PHI (__BB1042: _1042);
  if (_1043 != _1043)
    goto __BB1044;
  else
    goto __BB1044;

  __BB(1044):
  _1044 = __PHI (__BB1043: _1043);
  if (_1044 != _1044)
    goto __BB1045;
  else
    goto __BB1045;

  __BB(1045):
  _1045 = __PHI (__BB1044: _1044);
  if (_1045 != _1045)
    goto __BB1046;
  else
    goto __BB1046;

  __BB(1046):
  _1046 = __PHI (__BB1045: _1045);
  if (_1046 != _1046)
    goto __BB1047;
  else
    goto __BB1047;

  __BB(1047):
  _1047 = __PHI (__BB1046: _1046);
  if (_1047 != _1047)
    goto __BB1048;
  else
    goto __BB1048;

  __BB(1048):
  _1048 = __PHI (__BB1047: _1047);
  if (_1048 != _1048)
    goto __BB1049;
  else
    goto __BB1049;

  __BB(1049):
  _1049 = __PHI (__BB1048: _1048);
  if (_1049 != _1049)
    goto __BB1050;
  else
    goto __BB1050;

  __BB(1050):
  _1050 = __PHI (__BB1049: _1049);
  if (_1050 != _1050)
    goto __BB1051;
  else
    goto __BB1051;

  __BB(1051):
  _1051 = __PHI (__BB1050: _1050);
  if (_1051 != _1051)
    goto __BB1052;
  else
    goto __BB1052;

  __BB(1052):
  _1052 = __PHI (__BB1051: _1051);
  if (_1052 != _1052)
    goto __BB1053;
  else
    goto __BB1053;

  __BB(1053):
  _1053 = __PHI (__BB1052: _1052);
  if (_1053 != _1053)
    goto __BB1054;
  else
    goto __BB1054;

  __BB(1054):
  _1054 = __PHI (__BB1053: _1053);
  if (_1054 != _1054)
    goto __BB1055;
  else
    goto __BB1055;

  __BB(1055):
  _1055 = __PHI (__BB1054: _1054);
  if (_1055 != _1055)
    goto __BB1056;
  else
    goto __BB1056;

  __BB(1056):
  _1056 = __PHI (__BB1055: _1055);
  if (_1056 != _1056)
    goto __BB1057;
  else
    goto __BB1057;

  __BB(1057):
  _1057 = __PHI (__BB1056: _1056);
  if (_1057 != _1057)
    goto __BB1058;
  else
    goto __BB1058;

  __BB(1058):
  _1058 = __PHI (__BB1057: _1057);
  if (_1058 != _1058)
    goto __BB1059;
  else
    goto __BB1059;

  __BB(1059):
  _1059 = __PHI (__BB1058: _1058);
  if (_1059 != _1059)
    goto __BB1060;
  else
    goto __BB1060;

  __BB(1060):
  _1060 = __PHI (__BB1059: _1059);
  if (_1060 != _1060)
    goto __BB1061;
  else
    goto __BB1061;

  __BB(1061):
  _1061 = __PHI (__BB1060: _1060);
  if (_1061 != _1061)
    goto __BB1062;
  else
    goto __BB1062;

  __BB(1062):
  _1062 = __PHI (__BB1061: _1061);
  if (_1062 != _1062)
    goto __BB1063;
  else
    goto __BB1063;

  __BB(1063):
  _1063 = __PHI (__BB1062: _1062);
  if (_1063 != _1063)
    goto __BB1064;
  else
    goto __BB1064;

  __BB(1064):
  _1064 = __PHI (__BB1063: _1063);
  if (_1064 != _1064)
    goto __BB1065;
  else
    goto __BB1065;

  __BB(1065):
  _1065 = __PHI (__BB1064: _1064);
  if (_1065 != _1065)
    goto __BB1066;
  else
    goto __BB1066;

  __BB(1066):
  _1066 = __PHI (__BB1065: _1065);
  if (_1066 != _1066)
    goto __BB1067;
  else
    goto __BB1067;

  __BB(1067):
  _1067 = __PHI (__BB1066: _1066);
  if (_1067 != _1067)
    goto __BB1068;
  else
    goto __BB1068;

  __BB(1068):
  _1068 = __PHI (__BB1067: _1067);
  if (_1068 != _1068)
    goto __BB1069;
  else
    goto __BB1069;

  __BB(1069):
  _1069 = __PHI (__BB1068: _1068);
  if (_1069 != _1069)
    goto __BB1070;
  else
    goto __BB1070;

  __BB(1070):
  _1070 = __PHI (__BB1069: _1069);
  if (_1070 != _1070)
    goto __BB1071;
  else
    goto __BB1071;

  __BB(1071):
  _1071 = __PHI (__BB1070: _1070);
  if (_1071 != _1071)
    goto __BB1072;
  else
    goto __BB1072;

  __BB(1072):
  _1072 = __PHI (__BB1071: _1071);
  if (_1072 != _1072)
    goto __BB1073;
  else
    goto __BB1073;

  __BB(1073):
  _1073 = __PHI (__BB1072: _1072);
  if (_1073 != _1073)
    goto __BB1074;
  else
    goto __BB1074;

  __BB(1074):
  _1074 = __PHI (__BB1073: _1073);
  if (_1074 != _1074)
    goto __BB1075;
  else
    goto __BB1075;

  __BB(1075):
  _1075 = __PHI (__BB1074: _1074);
  if (_1075 != _1075)
    goto __BB1076;
  else
    goto __BB1076;

  __BB(1076):
  _1076 = __PHI (__BB1075: _1075);
  if (_1076 != _1076)
    goto __BB1077;
  else
    goto __BB1077;

  __BB(1077):
  _1077 = __PHI (__BB1076: _1076);
  if (_1077 != _1077)
    goto __BB1078;
  else
    goto __BB1078;

  __BB(1078):
  _1078 = __PHI (__BB1077: _1077);
  if (_1078 != _1078)
    goto __BB1079;
  else
    goto __BB1079;

  __BB(1079):
  _1079 = __PHI (__BB1078: _1078);
  if (_1079 != _1079)
    goto __BB1080;
  else
    goto __BB1080;

  __BB(1080):
  _1080 = __PHI (__BB1079: _1079);
  if (_1080 != _1080)
    goto __BB1081;
  else
    goto __BB1081;

  __BB(1081):
  _1081 = __PHI (__BB1080: _1080);
  if (_1081 != _1081)
    goto __BB1082;
  else
    goto __BB1082;

  __BB(1082):
  _1082 = __PHI (__BB1081: _1081);
  if (_1082 != _1082)
    goto __BB1083;
  else
    goto __BB1083;

  __BB(1083):
  _1083 = __PHI (__BB1082: _1082);
  if (_1083 != _1083)
    goto __BB1084;
  else
    goto __BB1084;

  __BB(1084):
  _1084 = __PHI (__BB1083: _1083);
  if (_1084 != _1084)
    goto __BB1085;
  else
    goto __BB1085;

  __BB(1085):
  _1085 = __PHI (__BB1084: _1084);
  if (_1085 != _1085)
    goto __BB1086;
  else
    goto __BB1086;

  __BB(1086):
  _1086 = __PHI (__BB1085: _1085);
  if (_1086 != _1086)
    goto __BB1087;
  else
    goto __BB1087;

  __BB(1087):
  _1087 = __PHI (__BB1086: _1086);
  if (_1087 != _1087)
    goto __BB1088;
  else
    goto __BB1088;

  __BB(1088):
  _1088 = __PHI (__BB1087: _1087);
  if (_1088 != _1088)
    goto __BB1089;
  else
    goto __BB1089;

  __BB(1089):
  _1089 = __PHI (__BB1088: _1088);
  if (_1089 != _1089)
    goto __BB1090;
  else
    goto __BB1090;

  __BB(1090):
  _1090 = __PHI (__BB1089: _1089);
  if (_1090 != _1090)
    goto __BB1091;
  else
    goto __BB1091;

  __BB(1091):
  _1091 = __PHI (__BB1090: _1090);
  if (_1091 != _1091)
    goto __BB1092;
  else
    goto __BB1092;

  __BB(1092):
  _1092 = __PHI (__BB1091: _1091);
  if (_1092 != _1092)
    goto __BB1093;
  else
    goto __BB1093;

  __BB(1093):
  _1093 = __PHI (__BB1092: _1092);
  if (_1093 != _1093)
    goto __BB1094;
  else
    goto __BB1094;

  __BB(1094):
  _1094 = __PHI (__BB1093: _1093);
  if (_1094 != _1094)
    goto __BB1095;
  else
    goto __BB1095;

  __BB(1095):
  _1095 = __PHI (__BB1094: _1094);
  if (_1095 != _1095)
    goto __BB1096;
  else
    goto __BB1096;

  __BB(1096):
  _1096 = __PHI (__BB1095: _1095);
  if (_1096 != _1096)
    goto __BB1097;
  else
    goto __BB1097;

  __BB(1097):
  _1097 = __PHI (__BB1096: _1096);
  if (_1097 != _1097)
    goto __BB1098;
  else
    goto __BB1098;

  __BB(1098):
  _1098 = __PHI (__BB1097: _1097);
  if (_1098 != _1098)
    goto __BB1099;
  else
    goto __BB1099;

  __BB(1099):
  _1099 = __PHI (__BB1098: _1098);
  if (_1099 != _1099)
    goto __BB1100;
  else
    goto __BB1100;

  __BB(1100):
  _1100 = __PHI (__BB1099: _1099);
  if (_1100 != _1100)
    goto __BB1101;
  else
    goto __BB1101;

  __BB(1101):
  _1101 = __PHI (__BB1100: _1100);
  if (_1101 != _1101)
    goto __BB1102;
  else
    goto __BB1102;

  __BB(1102):
  _1102 = __PHI (__BB1101: _1101);
  if (_1102 != _1102)
    goto __BB1103;
  else
    goto __BB1103;

  __BB(1103):
  _1103 = __PHI (__BB1102: _1102);
  if (_1103 != _1103)
    goto __BB1104;
  else
    goto __BB1104;

  __BB(1104):
  _1104 = __PHI (__BB1103: _1103);
  if (_1104 != _1104)
    goto __BB1105;
  else
    goto __BB1105;

  __BB(1105):
  _1105 = __PHI (__BB1104: _1104);
  if (_1105 != _1105)
    goto __BB1106;
  else
    goto __BB1106;

  __BB(1106):
  _1106 = __PHI (__BB1105: _1105);
  if (_1106 != _1106)
    goto __BB1107;
  else
    goto __BB1107;

  __BB(1107):
  _1107 = __PHI (__BB1106: _1106);
  if (_1107 != _1107)
    goto __BB1108;
  else
    goto __BB1108;

  __BB(1108):
  _1108 = __PHI (__BB1107: _1107);
  if (_1108 != _1108)
    goto __BB1109;
  else
    goto __BB1109;

  __BB(1109):
  _1109 = __PHI (__BB1108: _1108);
  if (_1109 != _1109)
    goto __BB1110;
  else
    goto __BB1110;

  __BB(1110):
  _1110 = __PHI (__BB1109: _1109);
  if (_1110 != _1110)
    goto __BB1111;
  else
    goto __BB1111;

  __BB(1111):
  _1111 = __PHI (__BB1110: _1110);
  if (_1111 != _1111)
    goto __BB1112;
  else
    goto __BB1112;

  __BB(1112):
  _1112 = __PHI (__BB1111: _1111);
  if (_1112 != _1112)
    goto __BB1113;
  else
    goto __BB1113;

  __BB(1113):
  _1113 = __PHI (__BB1112: _1112);
  if (_1113 != _1113)
    goto __BB1114;
  else
    goto __BB1114;

  __BB(1114):
  _1114 = __PHI (__BB1113: _1113);
  if (_1114 != _1114)
    goto __BB1115;
  else
    goto __BB1115;

  __BB(1115):
  _1115 = __PHI (__BB1114: _1114);
  if (_1115 != _1115)
    goto __BB1116;
  else
    goto __BB1116;

  __BB(1116):
  _1116 = __PHI (__BB1115: _1115);
  if (_1116 != _1116)
    goto __BB1117;
  else
    goto __BB1117;

  __BB(1117):
  _1117 = __PHI (__BB1116: _1116);
  if (_1117 != _1117)
    goto __BB1118;
  else
    goto __BB1118;

  __BB(1118):
  _1118 = __PHI (__BB1117: _1117);
  if (_1118 != _1118)
    goto __BB1119;
  else
    goto __BB1119;

  __BB(1119):
  _1119 = __PHI (__BB1118: _1118);
  if (_1119 != _1119)
    goto __BB1120;
  else
    goto __BB1120;

  __BB(1120):
  _1120 = __PHI (__BB1119: _1119);
  if (_1120 != _1120)
    goto __BB1121;
  else
    goto __BB1121;

  __BB(1121):
  _1121 = __PHI (__BB1120: _1120);
  if (_1121 != _1121)
    goto __BB1122;
  else
    goto __BB1122;

  __BB(1122):
  _1122 = __PHI (__BB1121: _1121);
  if (_1122 != _1122)
    goto __BB1123;
  else
    goto __BB1123;

  __BB(1123):
  _1123 = __PHI (__BB1122: _1122);
  if (_1123 != _1123)
    goto __BB1124;
  else
    goto __BB1124;

  __BB(1124):
  _1124 = __PHI (__BB1123: _1123);
  if (_1124 != _1124)
    goto __BB1125;
  else
    goto __BB1125;

  __BB(1125):
  _1125 = __PHI (__BB1124: _1124);
  if (_1125 != _1125)
    goto __BB1126;
  else
    goto __BB1126;

  __BB(1126):
  _1126 = __PHI (__BB1125: _1125);
  if (_1126 != _1126)
    goto __BB1127;
  else
    goto __BB1127;

  __BB(1127):
  _1127 = __PHI (__BB1126: _1126);
  if (_1127 != _1127)
    goto __BB1128;
  else
    goto __BB1128;

  __BB(1128):
  _1128 = __PHI (__BB1127: _1127);
  if (_1128 != _1128)
    goto __BB1129;
  else
    goto __BB1129;

  __BB(1129):
  _1129 = __PHI (__BB1128: _1128);
  if (_1129 != _1129)
    goto __BB1130;
  else
    goto __BB1130;

  __BB(1130):
  _1130 = __PHI (__BB1129: _1129);
  if (_1130 != _1130)
    goto __BB1131;
  else
    goto __BB1131;

  __BB(1131):
  _1131 = __PHI (__BB1130: _1130);
  if (_1131 != _1131)
    goto __BB1132;
  else
    goto __BB1132;

  __BB(1132):
  _1132 = __PHI (__BB1131: _1131);
  if (_1132 != _1132)
    goto __BB1133;
  else
    goto __BB1133;

  __BB(1133):
  _1133 = __PHI (__BB1132: _1132);
  if (_1133 != _1133)
    goto __BB1134;
  else
    goto __BB1134;

  __BB(1134):
  _1134 = __PHI (__BB1133: _1133);
  if (_1134 != _1134)
    goto __BB1135;
  else
    goto __BB1135;

  __BB(1135):
  _1135 = __PHI (__BB1134: _1134);
  if (_1135 != _1135)
    goto __BB1136;
  else
    goto __BB1136;

  __BB(1136):
  _1136 = __PHI (__BB1135: _1135);
  if (_1136 != _1136)
    goto __BB1137;
  else
    goto __BB1137;

  __BB(1137):
  _1137 = __PHI (__BB1136: _1136);
  if (_1137 != _1137)
    goto __BB1138;
  else
    goto __BB1138;

  __BB(1138):
  _1138 = __PHI (__BB1137: _1137);
  if (_1138 != _1138)
    goto __BB1139;
  else
    goto __BB1139;

  __BB(1139):
  _1139 = __PHI (__BB1138: _1138);
  if (_1139 != _1139)
    goto __BB1140;
  else
    goto __BB1140;

  __BB(1140):
  _1140 = __PHI (__BB1139: _1139);
  if (_1140 != _1140)
    goto __BB1141;
  else
    goto __BB1141;

  __BB(1141):
  _1141 = __PHI (__BB1140: _1140);
  if (_1141 != _1141)
    goto __BB1142;
  else
    goto __BB1142;

  __BB(1142):
  _1142 = __PHI (__BB1141: _1141);
  if (_1142 != _1142)
    goto __BB1143;
  else
    goto __BB1143;

  __BB(1143):
  _1143 = __PHI (__BB1142: _1142);
  if (_1143 != _1143)
    goto __BB1144;
  else
    goto __BB1144;

  __BB(1144):
  _1144 = __PHI (__BB1143: _1143);
  if (_1144 != _1144)
    goto __BB1145;
  else
    goto __BB1145;

  __BB(1145):
  _1145 = __PHI (__BB1144: _1144);
  if (_1145 != _1145)
    goto __BB1146;
  else
    goto __BB1146;

  __BB(1146):
  _1146 = __PHI (__BB1145: _1145);
  if (_1146 != _1146)
    goto __BB1147;
  else
    goto __BB1147;

  __BB(1147):
  _1147 = __PHI (__BB1146: _1146);
  if (_1147 != _1147)
    goto __BB1148;
  else
    goto __BB1148;

  __BB(1148):
  _1148 = __PHI (__BB1147: _1147);
  if (_1148 != _1148)
    goto __BB1149;
  else
    goto __BB1149;

  __BB(1149):
  _1149 = __PHI (__BB1148: _1148);
  if (_1149 != _1149)
    goto __BB1150;
  else
    goto __BB1150;

  __BB(1150):
  _1150 = __PHI (__BB1149: _1149);
  if (_1150 != _1150)
    goto __BB1151;
  else
    goto __BB1151;

  __BB(1151):
  _1151 = __PHI (__BB1150: _1150);
  if (_1151 != _1151)
    goto __BB1152;
  else
    goto __BB1152;

  __BB(1152):
  _1152 = __PHI (__BB1151: _1151);
  if (_1152 != _1152)
    goto __BB1153;
  else
    goto __BB1153;

  __BB(1153):
  _1153 = __PHI (__BB1152: _1152);
  if (_1153 != _1153)
    goto __BB1154;
  else
    goto __BB1154;

  __BB(1154):
  _1154 = __PHI (__BB1153: _1153);
  if (_1154 != _1154)
    goto __BB1155;
  else
    goto __BB1155;

  __BB(1155):
  _1155 = __PHI (__BB1154: _1154);
  if (_1155 != _1155)
    goto __BB1156;
  else
    goto __BB1156;

  __BB(1156):
  _1156 = __PHI (__BB1155: _1155);
  if (_1156 != _1156)
    goto __BB1157;
  else
    goto __BB1157;

  __BB(1157):
  _1157 = __PHI (__BB1156: _1156);
  if (_1157 != _1157)
    goto __BB1158;
  else
    goto __BB1158;

  __BB(1158):
  _1158 = __PHI (__BB1157: _1157);
  if (_1158 != _1158)
    goto __BB1159;
  else
    goto __BB1159;

  __BB(1159):
  _1159 = __PHI (__BB1158: _1158);
  if (_1159 != _1159)
    goto __BB1160;
  else
    goto __BB1160;

  __BB(1160):
  _1160 = __PHI (__BB1159: _1159);
  if (_1160 != _1160)
    goto __BB1161;
  else
    goto __BB1161;

  __BB(1161):
  _1161 = __PHI (__BB1160: _1160);
  if (_1161 != _1161)
    goto __BB1162;
  else
    goto __BB1162;

  __BB(1162):
  _1162 = __PHI (__BB1161: _1161);
  if (_1162 != _1162)
    goto __BB1163;
  else
    goto __BB1163;

  __BB(1163):
  _1163 = __PHI (__BB1162: _1162);
  if (_1163 != _1163)
    goto __BB1164;
  else
    goto __BB1164;

  __BB(1164):
  _1164 = __PHI (__BB1163: _1163);
  if (_1164 != _1164)
    goto __BB1165;
  else
    goto __BB1165;

  __BB(1165):
  _1165 = __PHI (__BB1164: _1164);
  if (_1165 != _1165)
    goto __BB1166;
  else
    goto __BB1166;

  __BB(1166):
  _1166 = __PHI (__BB1165: _1165);
  if (_1166 != _1166)
    goto __BB1167;
  else
    goto __BB1167;

  __BB(1167):
  _1167 = __PHI (__BB1166: _1166);
  if (_1167 != _1167)
    goto __BB1168;
  else
    goto __BB1168;

  __BB(1168):
  _1168 = __PHI (__BB1167: _1167);
  if (_1168 != _1168)
    goto __BB1169;
  else
    goto __BB1169;

  __BB(1169):
  _1169 = __PHI (__BB1168: _1168);
  if (_1169 != _1169)
    goto __BB1170;
  else
    goto __BB1170;

  __BB(1170):
  _1170 = __PHI (__BB1169: _1169);
  if (_1170 != _1170)
    goto __BB1171;
  else
    goto __BB1171;

  __BB(1171):
  _1171 = __PHI (__BB1170: _1170);
  if (_1171 != _1171)
    goto __BB1172;
  else
    goto __BB1172;

  __BB(1172):
  _1172 = __PHI (__BB1171: _1171);
  if (_1172 != _1172)
    goto __BB1173;
  else
    goto __BB1173;

  __BB(1173):
  _1173 = __PHI (__BB1172: _1172);
  if (_1173 != _1173)
    goto __BB1174;
  else
    goto __BB1174;

  __BB(1174):
  _1174 = __PHI (__BB1173: _1173);
  if (_1174 != _1174)
    goto __BB1175;
  else
    goto __BB1175;

  __BB(1175):
  _1175 = __PHI (__BB1174: _1174);
  if (_1175 != _1175)
    goto __BB1176;
  else
    goto __BB1176;

  __BB(1176):
  _1176 = __PHI (__BB1175: _1175);
  if (_1176 != _1176)
    goto __BB1177;
  else
    goto __BB1177;

  __BB(1177):
  _1177 = __PHI (__BB1176: _1176);
  if (_1177 != _1177)
    goto __BB1178;
  else
    goto __BB1178;

  __BB(1178):
  _1178 = __PHI (__BB1177: _1177);
  if (_1178 != _1178)
    goto __BB1179;
  else
    goto __BB1179;

  __BB(1179):
  _1179 = __PHI (__BB1178: _1178);
  if (_1179 != _1179)
    goto __BB1180;
  else
    goto __BB1180;

  __BB(1180):
  _1180 = __PHI (__BB1179: _1179);
  if (_1180 != _1180)
    goto __BB1181;
  else
    goto __BB1181;

  __BB(1181):
  _1181 = __PHI (__BB1180: _1180);
  if (_1181 != _1181)
    goto __BB1182;
  else
    goto __BB1182;

  __BB(1182):
  _1182 = __PHI (__BB1181: _1181);
  if (_1182 != _1182)
    goto __BB1183;
  else
    goto __BB1183;

  __BB(1183):
  _1183 = __PHI (__BB1182: _1182);
  if (_1183 != _1183)
    goto __BB1184;
  else
    goto __BB1184;

  __BB(1184):
  _1184 = __PHI (__BB1183: _1183);
  if (_1184 != _1184)
    goto __BB1185;
  else
    goto __BB1185;

  __BB(1185):
  _1185 = __PHI (__BB1184: _1184);
  if (_1185 != _1185)
    goto __BB1186;
  else
    goto __BB1186;

  __BB(1186):
  _1186 = __PHI (__BB1185: _1185);
  if (_1186 != _1186)
    goto __BB1187;
  else
    goto __BB1187;

  __BB(1187):
  _1187 = __PHI (__BB1186: _1186);
  if (_1187 != _1187)
    goto __BB1188;
  else
    goto __BB1188;

  __BB(1188):
  _1188 = __PHI (__BB1187: _1187);
  if (_1188 != _1188)
    goto __BB1189;
  else
    goto __BB1189;

  __BB(1189):
  _1189 = __PHI (__BB1188: _1188);
  if (_1189 != _1189)
    goto __BB1190;
  else
    goto __BB1190;

  __BB(1190):
  _1190 = __PHI (__BB1189: _1189);
  if (_1190 != _1190)
    goto __BB1191;
  else
    goto __BB1191;

  __BB(1191):
  _1191 = __PHI (__BB1190: _1190);
  if (_1191 != _1191)
    goto __BB1192;
  else
    goto __BB1192;

  __BB(1192):
  _1192 = __PHI (__BB1191: _1191);
  if (_1192 != _1192)
    goto __BB1193;
  else
    goto __BB1193;

  __BB(1193):
  _1193 = __PHI (__BB1192: _1192);
  if (_1193 != _1193)
    goto __BB1194;
  else
    goto __BB1194;

  __BB(1194):
  _1194 = __PHI (__BB1193: _1193);
  if (_1194 != _1194)
    goto __BB1195;
  else
    goto __BB1195;

  __BB(1195):
  _1195 = __PHI (__BB1194: _1194);
  if (_1195 != _1195)
    goto __BB1196;
  else
    goto __BB1196;

  __BB(1196):
  _1196 = __PHI (__BB1195: _1195);
  if (_1196 != _1196)
    goto __BB1197;
  else
    goto __BB1197;

  __BB(1197):
  _1197 = __PHI (__BB1196: _1196);
  if (_1197 != _1197)
    goto __BB1198;
  else
    goto __BB1198;

  __BB(1198):
  _1198 = __PHI (__BB1197: _1197);
  if (_1198 != _1198)
    goto __BB1199;
  else
    goto __BB1199;

  __BB(1199):
  _1199 = __PHI (__BB1198: _1198);
  if (_1199 != _1199)
    goto __BB1200;
  else
    goto __BB1200;

  __BB(1200):
  _1200 = __PHI (__BB1199: _1199);
  if (_1200 != _1200)
    goto __BB1201;
  else
    goto __BB1201;

  __BB(1201):
  _1201 = __PHI (__BB1200: _1200);
  if (_1201 != _1201)
    goto __BB1202;
  else
    goto __BB1202;

  __BB(1202):
  _1202 = __PHI (__BB1201: _1201);
  if (_1202 != _1202)
    goto __BB1203;
  else
    goto __BB1203;

  __BB(1203):
  _1203 = __PHI (__BB1202: _1202);
  if (_1203 != _1203)
    goto __BB1204;
  else
    goto __BB1204;

  __BB(1204):
  _1204 = __PHI (__BB1203: _1203);
  if (_1204 != _1204)
    goto __BB1205;
  else
    goto __BB1205;

  __BB(1205):
  _1205 = __PHI (__BB1204: _1204);
  if (_1205 != _1205)
    goto __BB1206;
  else
    goto __BB1206;

  __BB(1206):
  _1206 = __PHI (__BB1205: _1205);
  if (_1206 != _1206)
    goto __BB1207;
  else
    goto __BB1207;

  __BB(1207):
  _1207 = __PHI (__BB1206: _1206);
  if (_1207 != _1207)
    goto __BB1208;
  else
    goto __BB1208;

  __BB(1208):
  _1208 = __PHI (__BB1207: _1207);
  if (_1208 != _1208)
    goto __BB1209;
  else
    goto __BB1209;

  __BB(1209):
  _1209 = __PHI (__BB1208: _1208);
  if (_1209 != _1209)
    goto __BB1210;
  else
    goto __BB1210;

  __BB(1210):
  _1210 = __PHI (__BB1209: _1209);
  if (_1210 != _1210)
    goto __BB1211;
  else
    goto __BB1211;

  __BB(1211):
  _1211 = __PHI (__BB1210: _1210);
  if (_1211 != _1211)
    goto __BB1212;
  else
    goto __BB1212;

  __BB(1212):
  _1212 = __PHI (__BB1211: _1211);
  if (_1212 != _1212)
    goto __BB1213;
  else
    goto __BB1213;

  __BB(1213):
  _1213 = __PHI (__BB1212: _1212);
  if (_1213 != _1213)
    goto __BB1214;
  else
    goto __BB1214;

  __BB(1214):
  _1214 = __PHI (__BB1213: _1213);
  if (_1214 != _1214)
    goto __BB1215;
  else
    goto __BB1215;

  __BB(1215):
  _1215 = __PHI (__BB1214: _1214);
  if (_1215 != _1215)
    goto __BB1216;
  else
    goto __BB1216;

  __BB(1216):
  _1216 = __PHI (__BB1215: _1215);
  if (_1216 != _1216)
    goto __BB1217;
  else
    goto __BB1217;

  __BB(1217):
  _1217 = __PHI (__BB1216: _1216);
  if (_1217 != _1217)
    goto __BB1218;
  else
    goto __BB1218;

  __BB(1218):
  _1218 = __PHI (__BB1217: _1217);
  if (_1218 != _1218)
    goto __BB1219;
  else
    goto __BB1219;

  __BB(1219):
  _1219 = __PHI (__BB1218: _1218);
  if (_1219 != _1219)
    goto __BB1220;
  else
    goto __BB1220;

  __BB(1220):
  _1220 = __PHI (__BB1219: _1219);
  if (_1220 != _1220)
    goto __BB1221;
  else
    goto __BB1221;

  __BB(1221):
  _1221 = __PHI (__BB1220: _1220);
  if (_1221 != _1221)
    goto __BB1222;
  else
    goto __BB1222;

  __BB(1222):
  _1222 = __PHI (__BB1221: _1221);
  if (_1222 != _1222)
    goto __BB1223;
  else
    goto __BB1223;

  __BB(1223):
  _1223 = __PHI (__BB1222: _1222);
  if (_1223 != _1223)
    goto __BB1224;
  else
    goto __BB1224;

  __BB(1224):
  _1224 = __PHI (__BB1223: _1223);
  if (_1224 != _1224)
    goto __BB1225;
  else
    goto __BB1225;

  __BB(1225):
  _1225 = __PHI (__BB1224: _1224);
  if (_1225 != _1225)
    goto __BB1226;
  else
    goto __BB1226;

  __BB(1226):
  _1226 = __PHI (__BB1225: _1225);
  if (_1226 != _1226)
    goto __BB1227;
  else
    goto __BB1227;

  __BB(1227):
  _1227 = __PHI (__BB1226: _1226);
  if (_1227 != _1227)
    goto __BB1228;
  else
    goto __BB1228;

  __BB(1228):
  _1228 = __PHI (__BB1227: _1227);
  if (_1228 != _1228)
    goto __BB1229;
  else
    goto __BB1229;

  __BB(1229):
  _1229 = __PHI (__BB1228: _1228);
  if (_1229 != _1229)
    goto __BB1230;
  else
    goto __BB1230;

  __BB(1230):
  _1230 = __PHI (__BB1229: _1229);
  if (_1230 != _1230)
    goto __BB1231;
  else
    goto __BB1231;

  __BB(1231):
  _1231 = __PHI (__BB1230: _1230);
  if (_1231 != _1231)
    goto __BB1232;
  else
    goto __BB1232;

  __BB(1232):
  _1232 = __PHI (__BB1231: _1231);
  if (_1232 != _1232)
    goto __BB1233;
  else
    goto __BB1233;

  __BB(1233):
  _1233 = __PHI (__BB1232: _1232);
  if (_1233 != _1233)
    goto __BB1234;
  else
    goto __BB1234;

  __BB(1234):
  _1234 = __PHI (__BB1233: _1233);
  if (_1234 != _1234)
    goto __BB1235;
  else
    goto __BB1235;

  __BB(1235):
  _1235 = __PHI (__BB1234: _1234);
  if (_1235 != _1235)
    goto __BB1236;
  else
    goto __BB1236;

  __BB(1236):
  _1236 = __PHI (__BB1235: _1235);
  if (_1236 != _1236)
    goto __BB1237;
  else
    goto __BB1237;

  __BB(1237):
  _1237 = __PHI (__BB1236: _1236);
  if (_1237 != _1237)
    goto __BB1238;
  else
    goto __BB1238;

  __BB(1238):
  _1238 = __PHI (__BB1237: _1237);
  if (_1238 != _1238)
    goto __BB1239;
  else
    goto __BB1239;

  __BB(1239):
  _1239 = __PHI (__BB1238: _1238);
  if (_1239 != _1239)
    goto __BB1240;
  else
    goto __BB1240;

  __BB(1240):
  _1240 = __PHI (__BB1239: _1239);
  if (_1240 != _1240)
    goto __BB1241;
  else
    goto __BB1241;

  __BB(1241):
  _1241 = __PHI (__BB1240: _1240);
  if (_1241 != _1241)
    goto __BB1242;
  else
    goto __BB1242;

  __BB(1242):
  _1242 = __PHI (__BB1241: _1241);
  if (_1242 != _1242)
    goto __BB1243;
  else
    goto __BB1243;

  __BB(1243):
  _1243 = __PHI (__BB1242: _1242);
  if (_1243 != _1243)
    goto __BB1244;
  else
    goto __BB1244;

  __BB(1244):
  _1244 = __PHI (__BB1243: _1243);
  if (_1244 != _1244)
    goto __BB1245;
  else
    goto __BB1245;

  __BB(1245):
  _1245 = __PHI (__BB1244: _1244);
  if (_1245 != _1245)
    goto __BB1246;
  else
    goto __BB1246;

  __BB(1246):
  _1246 = __PHI (__BB1245: _1245);
  if (_1246 != _1246)
    goto __BB1247;
  else
    goto __BB1247;

  __BB(1247):
  _1247 = __PHI (__BB1246: _1246);
  if (_1247 != _1247)
    goto __BB1248;
  else
    goto __BB1248;

  __BB(1248):
  _1248 = __PHI (__BB1247: _1247);
  if (_1248 != _1248)
    goto __BB1249;
  else
    goto __BB1249;

  __BB(1249):
  _1249 = __PHI (__BB1248: _1248);
  if (_1249 != _1249)
    goto __BB1250;
  else
    goto __BB1250;

  __BB(1250):
  _1250 = __PHI (__BB1249: _1249);
  if (_1250 != _1250)
    goto __BB1251;
  else
    goto __BB1251;

  __BB(1251):
  _1251 = __PHI (__BB1250: _1250);
  if (_1251 != _1251)
    goto __BB1252;
  else
    goto __BB1252;

  __BB(1252):
  _1252 = __PHI (__BB1251: _1251);
  if (_1252 != _1252)
    goto __BB1253;
  else
    goto __BB1253;

  __BB(1253):
  _1253 = __PHI (__BB1252: _1252);
  if (_1253 != _1253)
    goto __BB1254;
  else
    goto __BB1254;

  __BB(1254):
  _1254 = __PHI (__BB1253: _1253);
  if (_1254 != _1254)
    goto __BB1255;
  else
    goto __BB1255;

  __BB(1255):
  _1255 = __PHI (__BB1254: _1254);
  if (_1255 != _1255)
    goto __BB1256;
  else
    goto __BB1256;

  __BB(1256):
  _1256 = __PHI (__BB1255: _1255);
  if (_1256 != _1256)
    goto __BB1257;
  else
    goto __BB1257;

  __BB(1257):
  _1257 = __PHI (__BB1256: _1256);
  if (_1257 != _1257)
    goto __BB1258;
  else
    goto __BB1258;

  __BB(1258):
  _1258 = __PHI (__BB1257: _1257);
  if (_1258 != _1258)
    goto __BB1259;
  else
    goto __BB1259;

  __BB(1259):
  _1259 = __PHI (__BB1258: _1258);
  if (_1259 != _1259)
    goto __BB1260;
  else
    goto __BB1260;

  __BB(1260):
  _1260 = __PHI (__BB1259: _1259);
  if (_1260 != _1260)
    goto __BB1261;
  else
    goto __BB1261;

  __BB(1261):
  _1261 = __PHI (__BB1260: _1260);
  if (_1261 != _1261)
    goto __BB1262;
  else
    goto __BB1262;

  __BB(1262):
  _1262 = __PHI (__BB1261: _1261);
  if (_1262 != _1262)
    goto __BB1263;
  else
    goto __BB1263;

  __BB(1263):
  _1263 = __PHI (__BB1262: _1262);
  if (_1263 != _1263)
    goto __BB1264;
  else
    goto __BB1264;

  __BB(1264):
  _1264 = __PHI (__BB1263: _1263);
  if (_1264 != _1264)
    goto __BB1265;
  else
    goto __BB1265;

  __BB(1265):
  _1265 = __PHI (__BB1264: _1264);
  if (_1265 != _1265)
    goto __BB1266;
  else
    goto __BB1266;

  __BB(1266):
  _1266 = __PHI (__BB1265: _1265);
  if (_1266 != _1266)
    goto __BB1267;
  else
    goto __BB1267;

  __BB(1267):
  _1267 = __PHI (__BB1266: _1266);
  if (_1267 != _1267)
    goto __BB1268;
  else
    goto __BB1268;

  __BB(1268):
  _1268 = __PHI (__BB1267: _1267);
  if (_1268 != _1268)
    goto __BB1269;
  else
    goto __BB1269;

  __BB(1269):
  _1269 = __PHI (__BB1268: _1268);
  if (_1269 != _1269)
    goto __BB1270;
  else
    goto __BB1270;

  __BB(1270):
  _1270 = __PHI (__BB1269: _1269);
  if (_1270 != _1270)
    goto __BB1271;
  else
    goto __BB1271;

  __BB(1271):
  _1271 = __PHI (__BB1270: _1270);
  if (_1271 != _1271)
    goto __BB1272;
  else
    goto __BB1272;

  __BB(1272):
  _1272 = __PHI (__BB1271: _1271);
  if (_1272 != _1272)
    goto __BB1273;
  else
    goto __BB1273;

  __BB(1273):
  _1273 = __PHI (__BB1272: _1272);
  if (_1273 != _1273)
    goto __BB1274;
  else
    goto __BB1274;

  __BB(1274):
  _1274 = __PHI (__BB1273: _1273);
  if (_1274 != _1274)
    goto __BB1275;
  else
    goto __BB1275;

  __BB(1275):
  _1275 = __PHI (__BB1274: _1274);
  if (_1275 != _1275)
    goto __BB1276;
  else
    goto __BB1276;

  __BB(1276):
  _1276 = __PHI (__BB1275: _1275);
  if (_1276 != _1276)
    goto __BB1277;
  else
    goto __BB1277;

  __BB(1277):
  _1277 = __PHI (__BB1276: _1276);
  if (_1277 != _1277)
    goto __BB1278;
  else
    goto __BB1278;

  __BB(1278):
  _1278 = __PHI (__BB1277: _1277);
  if (_1278 != _1278)
    goto __BB1279;
  else
    goto __BB1279;

  __BB(1279):
  _1279 = __PHI (__BB1278: _1278);
  if (_1279 != _1279)
    goto __BB1280;
  else
    goto __BB1280;

  __BB(1280):
  _1280 = __PHI (__BB1279: _1279);
  if (_1280 != _1280)
    goto __BB1281;
  else
    goto __BB1281;

  __BB(1281):
  _1281 = __PHI (__BB1280: _1280);
  if (_1281 != _1281)
    goto __BB1282;
  else
    goto __BB1282;

  __BB(1282):
  _1282 = __PHI (__BB1281: _1281);
  if (_1282 != _1282)
    goto __BB1283;
  else
    goto __BB1283;

  __BB(1283):
  _1283 = __PHI (__BB1282: _1282);
  if (_1283 != _1283)
    goto __BB1284;
  else
    goto __BB1284;

  __BB(1284):
  _1284 = __PHI (__BB1283: _1283);
  if (_1284 != _1284)
    goto __BB1285;
  else
    goto __BB1285;

  __BB(1285):
  _1285 = __PHI (__BB1284: _1284);
  if (_1285 != _1285)
    goto __BB1286;
  else
    goto __BB1286;

  __BB(1286):
  _1286 = __PHI (__BB1285: _1285);
  if (_1286 != _1286)
    goto __BB1287;
  else
    goto __BB1287;

  __BB(1287):
  _1287 = __PHI (__BB1286: _1286);
  if (_1287 != _1287)
    goto __BB1288;
  else
    goto __BB1288;

  __BB(1288):
  _1288 = __PHI (__BB1287: _1287);
  if (_1288 != _1288)
    goto __BB1289;
  else
    goto __BB1289;

  __BB(1289):
  _1289 = __PHI (__BB1288: _1288);
  if (_1289 != _1289)
    goto __BB1290;
  else
    goto __BB1290;

  __BB(1290):
  _1290 = __PHI (__BB1289: _1289);
  if (_1290 != _1290)
    goto __BB1291;
  else
    goto __BB1291;

  __BB(1291):
  _1291 = __PHI (__BB1290: _1290);
  if (_1291 != _1291)
    goto __BB1292;
  else
    goto __BB1292;

  __BB(1292):
  _1292 = __PHI (__BB1291: _1291);
  if (_1292 != _1292)
    goto __BB1293;
  else
    goto __BB1293;

  __BB(1293):
  _1293 = __PHI (__BB1292: _1292);
  if (_1293 != _1293)
    goto __BB1294;
  else
    goto __BB1294;

  __BB(1294):
  _1294 = __PHI (__BB1293: _1293);
  if (_1294 != _1294)
    goto __BB1295;
  else
    goto __BB1295;

  __BB(1295):
  _1295 = __PHI (__BB1294: _1294);
  if (_1295 != _1295)
    goto __BB1296;
  else
    goto __BB1296;

  __BB(1296):
  _1296 = __PHI (__BB1295: _1295);
  if (_1296 != _1296)
    goto __BB1297;
  else
    goto __BB1297;

  __BB(1297):
  _1297 = __PHI (__BB1296: _1296);
  if (_1297 != _1297)
    goto __BB1298;
  else
    goto __BB1298;

  __BB(1298):
  _1298 = __PHI (__BB1297: _1297);
  if (_1298 != _1298)
    goto __BB1299;
  else
    goto __BB1299;

  __BB(1299):
  _1299 = __PHI (__BB1298: _1298);
  if (_1299 != _1299)
    goto __BB1300;
  else
    goto __BB1300;

  __BB(1300):
  _1300 = __PHI (__BB1299: _1299);
  if (_1300 != _1300)
    goto __BB1301;
  else
    goto __BB1301;

  __BB(1301):
  _1301 = __PHI (__BB1300: _1300);
  if (_1301 != _1301)
    goto __BB1302;
  else
    goto __BB1302;

  __BB(1302):
  _1302 = __PHI (__BB1301: _1301);
  if (_1302 != _1302)
    goto __BB1303;
  else
    goto __BB1303;

  __BB(1303):
  _1303 = __PHI (__BB1302: _1302);
  if (_1303 != _1303)
    goto __BB1304;
  else
    goto __BB1304;

  __BB(1304):
  _1304 = __PHI (__BB1303: _1303);
  if (_1304 != _1304)
    goto __BB1305;
  else
    goto __BB1305;

  __BB(1305):
  _1305 = __PHI (__BB1304: _1304);
  if (_1305 != _1305)
    goto __BB1306;
  else
    goto __BB1306;

  __BB(1306):
  _1306 = __PHI (__BB1305: _1305);
  if (_1306 != _1306)
    goto __BB1307;
  else
    goto __BB1307;

  __BB(1307):
  _1307 = __PHI (__BB1306: _1306);
  if (_1307 != _1307)
    goto __BB1308;
  else
    goto __BB1308;

  __BB(1308):
  _1308 = __PHI (__BB1307: _1307);
  if (_1308 != _1308)
    goto __BB1309;
  else
    goto __BB1309;

  __BB(1309):
  _1309 = __PHI (__BB1308: _1308);
  if (_1309 != _1309)
    goto __BB1310;
  else
    goto __BB1310;

  __BB(1310):
  _1310 = __PHI (__BB1309: _1309);
  if (_1310 != _1310)
    goto __BB1311;
  else
    goto __BB1311;

  __BB(1311):
  _1311 = __PHI (__BB1310: _1310);
  if (_1311 != _1311)
    goto __BB1312;
  else
    goto __BB1312;

  __BB(1312):
  _1312 = __PHI (__BB1311: _1311);
  if (_1312 != _1312)
    goto __BB1313;
  else
    goto __BB1313;

  __BB(1313):
  _1313 = __PHI (__BB1312: _1312);
  if (_1313 != _1313)
    goto __BB1314;
  else
    goto __BB1314;

  __BB(1314):
  _1314 = __PHI (__BB1313: _1313);
  if (_1314 != _1314)
    goto __BB1315;
  else
    goto __BB1315;

  __BB(1315):
  _1315 = __PHI (__BB1314: _1314);
  if (_1315 != _1315)
    goto __BB1316;
  else
    goto __BB1316;

  __BB(1316):
  _1316 = __PHI (__BB1315: _1315);
  if (_1316 != _1316)
    goto __BB1317;
  else
    goto __BB1317;

  __BB(1317):
  _1317 = __PHI (__BB1316: _1316);
  if (_1317 != _1317)
    goto __BB1318;
  else
    goto __BB1318;

  __BB(1318):
  _1318 = __PHI (__BB1317: _1317);
  if (_1318 != _1318)
    goto __BB1319;
  else
    goto __BB1319;

  __BB(1319):
  _1319 = __PHI (__BB1318: _1318);
  if (_1319 != _1319)
    goto __BB1320;
  else
    goto __BB1320;

  __BB(1320):
  _1320 = __PHI (__BB1319: _1319);
  if (_1320 != _1320)
    goto __BB1321;
  else
    goto __BB1321;

  __BB(1321):
  _1321 = __PHI (__BB1320: _1320);
  if (_1321 != _1321)
    goto __BB1322;
  else
    goto __BB1322;

  __BB(1322):
  _1322 = __PHI (__BB1321: _1321);
  if (_1322 != _1322)
    goto __BB1323;
  else
    goto __BB1323;

  __BB(1323):
  _1323 = __PHI (__BB1322: _1322);
  if (_1323 != _1323)
    goto __BB1324;
  else
    goto __BB1324;

  __BB(1324):
  _1324 = __PHI (__BB1323: _1323);
  if (_1324 != _1324)
    goto __BB1325;
  else
    goto __BB1325;

  __BB(1325):
  _1325 = __PHI (__BB1324: _1324);
  if (_1325 != _1325)
    goto __BB1326;
  else
    goto __BB1326;

  __BB(1326):
  _1326 = __PHI (__BB1325: _1325);
  if (_1326 != _1326)
    goto __BB1327;
  else
    goto __BB1327;

  __BB(1327):
  _1327 = __PHI (__BB1326: _1326);
  if (_1327 != _1327)
    goto __BB1328;
  else
    goto __BB1328;

  __BB(1328):
  _1328 = __PHI (__BB1327: _1327);
  if (_1328 != _1328)
    goto __BB1329;
  else
    goto __BB1329;

  __BB(1329):
  _1329 = __PHI (__BB1328: _1328);
  if (_1329 != _1329)
    goto __BB1330;
  else
    goto __BB1330;

  __BB(1330):
  _1330 = __PHI (__BB1329: _1329);
  if (_1330 != _1330)
    goto __BB1331;
  else
    goto __BB1331;

  __BB(1331):
  _1331 = __PHI (__BB1330: _1330);
  if (_1331 != _1331)
    goto __BB1332;
  else
    goto __BB1332;

  __BB(1332):
  _1332 = __PHI (__BB1331: _1331);
  if (_1332 != _1332)
    goto __BB1333;
  else
    goto __BB1333;

  __BB(1333):
  _1333 = __PHI (__BB1332: _1332);
  if (_1333 != _1333)
    goto __BB1334;
  else
    goto __BB1334;

  __BB(1334):
  _1334 = __PHI (__BB1333: _1333);
  if (_1334 != _1334)
    goto __BB1335;
  else
    goto __BB1335;

  __BB(1335):
  _1335 = __PHI (__BB1334: _1334);
  if (_1335 != _1335)
    goto __BB1336;
  else
    goto __BB1336;

  __BB(1336):
  _1336 = __PHI (__BB1335: _1335);
  if (_1336 != _1336)
    goto __BB1337;
  else
    goto __BB1337;

  __BB(1337):
  _1337 = __PHI (__BB1336: _1336);
  if (_1337 != _1337)
    goto __BB1338;
  else
    goto __BB1338;

  __BB(1338):
  _1338 = __PHI (__BB1337: _1337);
  if (_1338 != _1338)
    goto __BB1339;
  else
    goto __BB1339;

  __BB(1339):
  _1339 = __PHI (__BB1338: _1338);
  if (_1339 != _1339)
    goto __BB1340;
  else
    goto __BB1340;

  __BB(1340):
  _1340 = __PHI (__BB1339: _1339);
  if (_1340 != _1340)
    goto __BB1341;
  else
    goto __BB1341;

  __BB(1341):
  _1341 = __PHI (__BB1340: _1340);
  if (_1341 != _1341)
    goto __BB1342;
  else
    goto __BB1342;

  __BB(1342):
  _1342 = __PHI (__BB1341: _1341);
  if (_1342 != _1342)
    goto __BB1343;
  else
    goto __BB1343;

  __BB(1343):
  _1343 = __PHI (__BB1342: _1342);
  if (_1343 != _1343)
    goto __BB1344;
  else
    goto __BB1344;

  __BB(1344):
  _1344 = __PHI (__BB1343: _1343);
  if (_1344 != _1344)
    goto __BB1345;
  else
    goto __BB1345;

  __BB(1345):
  _1345 = __PHI (__BB1344: _1344);
  if (_1345 != _1345)
    goto __BB1346;
  else
    goto __BB1346;

  __BB(1346):
  _1346 = __PHI (__BB1345: _1345);
  if (_1346 != _1346)
    goto __BB1347;
  else
    goto __BB1347;

  __BB(1347):
  _1347 = __PHI (__BB1346: _1346);
  if (_1347 != _1347)
    goto __BB1348;
  else
    goto __BB1348;

  __BB(1348):
  _1348 = __PHI (__BB1347: _1347);
  if (_1348 != _1348)
    goto __BB1349;
  else
    goto __BB1349;

  __BB(1349):
  _1349 = __PHI (__BB1348: _1348);
  if (_1349 != _1349)
    goto __BB1350;
  else
    goto __BB1350;

  __BB(1350):
  _1350 = __PHI (__BB1349: _1349);
  if (_1350 != _1350)
    goto __BB1351;
  else
    goto __BB1351;

  __BB(1351):
  _1351 = __PHI (__BB1350: _1350);
  if (_1351 != _1351)
    goto __BB1352;
  else
    goto __BB1352;

  __BB(1352):
  _1352 = __PHI (__BB1351: _1351);
  if (_1352 != _1352)
    goto __BB1353;
  else
    goto __BB1353;

  __BB(1353):
  _1353 = __PHI (__BB1352: _1352);
  if (_1353 != _1353)
    goto __BB1354;
  else
    goto __BB1354;

  __BB(1354):
  _1354 = __PHI (__BB1353: _1353);
  if (_1354 != _1354)
    goto __BB1355;
  else
    goto __BB1355;

  __BB(1355):
  _1355 = __PHI (__BB1354: _1354);
  if (_1355 != _1355)
    goto __BB1356;
  else
    goto __BB1356;

  __BB(1356):
  _1356 = __PHI (__BB1355: _1355);
  if (_1356 != _1356)
    goto __BB1357;
  else
    goto __BB1357;

  __BB(1357):
  _1357 = __PHI (__BB1356: _1356);
  if (_1357 != _1357)
    goto __BB1358;
  else
    goto __BB1358;

  __BB(1358):
  _1358 = __PHI (__BB1357: _1357);
  if (_1358 != _1358)
    goto __BB1359;
  else
    goto __BB1359;

  __BB(1359):
  _1359 = __PHI (__BB1358: _1358);
  if (_1359 != _1359)
    goto __BB1360;
  else
    goto __BB1360;

  __BB(1360):
  _1360 = __PHI (__BB1359: _1359);
  if (_1360 != _1360)
    goto __BB1361;
  else
    goto __BB1361;

  __BB(1361):
  _1361 = __PHI (__BB1360: _1360);
  if (_1361 != _1361)
    goto __BB1362;
  else
    goto __BB1362;

  __BB(1362):
  _1362 = __PHI (__BB1361: _1361);
  if (_1362 != _1362)
    goto __BB1363;
  else
    goto __BB1363;

  __BB(1363):
  _1363 = __PHI (__BB1362: _1362);
  if (_1363 != _1363)
    goto __BB1364;
  else
    goto __BB1364;

  __BB(1364):
  _1364 = __PHI (__BB1363: _1363);
  if (_1364 != _1364)
    goto __BB1365;
  else
    goto __BB1365;

  __BB(1365):
  _1365 = __PHI (__BB1364: _1364);
  if (_1365 != _1365)
    goto __BB1366;
  else
    goto __BB1366;

  __BB(1366):
  _1366 = __PHI (__BB1365: _1365);
  if (_1366 != _1366)
    goto __BB1367;
  else
    goto __BB1367;

  __BB(1367):
  _1367 = __PHI (__BB1366: _1366);
  if (_1367 != _1367)
    goto __BB1368;
  else
    goto __BB1368;

  __BB(1368):
  _1368 = __PHI (__BB1367: _1367);
  if (_1368 != _1368)
    goto __BB1369;
  else
    goto __BB1369;

  __BB(1369):
  _1369 = __PHI (__BB1368: _1368);
  if (_1369 != _1369)
    goto __BB1370;
  else
    goto __BB1370;

  __BB(1370):
  _1370 = __PHI (__BB1369: _1369);
  if (_1370 != _1370)
    goto __BB1371;
  else
    goto __BB1371;

  __BB(1371):
  _1371 = __PHI (__BB1370: _1370);
  if (_1371 != _1371)
    goto __BB1372;
  else
    goto __BB1372;

  __BB(1372):
  _1372 = __PHI (__BB1371: _1371);
  if (_1372 != _1372)
    goto __BB1373;
  else
    goto __BB1373;

  __BB(1373):
  _1373 = __PHI (__BB1372: _1372);
  if (_1373 != _1373)
    goto __BB1374;
  else
    goto __BB1374;

  __BB(1374):
  _1374 = __PHI (__BB1373: _1373);
  if (_1374 != _1374)
    goto __BB1375;
  else
    goto __BB1375;

  __BB(1375):
  _1375 = __PHI (__BB1374: _1374);
  if (_1375 != _1375)
    goto __BB1376;
  else
    goto __BB1376;

  __BB(1376):
  _1376 = __PHI (__BB1375: _1375);
  if (_1376 != _1376)
    goto __BB1377;
  else
    goto __BB1377;

  __BB(1377):
  _1377 = __PHI (__BB1376: _1376);
  if (_1377 != _1377)
    goto __BB1378;
  else
    goto __BB1378;

  __BB(1378):
  _1378 = __PHI (__BB1377: _1377);
  if (_1378 != _1378)
    goto __BB1379;
  else
    goto __BB1379;

  __BB(1379):
  _1379 = __PHI (__BB1378: _1378);
  if (_1379 != _1379)
    goto __BB1380;
  else
    goto __BB1380;

  __BB(1380):
  _1380 = __PHI (__BB1379: _1379);
  if (_1380 != _1380)
    goto __BB1381;
  else
    goto __BB1381;

  __BB(1381):
  _1381 = __PHI (__BB1380: _1380);
  if (_1381 != _1381)
    goto __BB1382;
  else
    goto __BB1382;

  __BB(1382):
  _1382 = __PHI (__BB1381: _1381);
  if (_1382 != _1382)
    goto __BB1383;
  else
    goto __BB1383;

  __BB(1383):
  _1383 = __PHI (__BB1382: _1382);
  if (_1383 != _1383)
    goto __BB1384;
  else
    goto __BB1384;

  __BB(1384):
  _1384 = __PHI (__BB1383: _1383);
  if (_1384 != _1384)
    goto __BB1385;
  else
    goto __BB1385;

  __BB(1385):
  _1385 = __PHI (__BB1384: _1384);
  if (_1385 != _1385)
    goto __BB1386;
  else
    goto __BB1386;

  __BB(1386):
  _1386 = __PHI (__BB1385: _1385);
  if (_1386 != _1386)
    goto __BB1387;
  else
    goto __BB1387;

  __BB(1387):
  _1387 = __PHI (__BB1386: _1386);
  if (_1387 != _1387)
    goto __BB1388;
  else
    goto __BB1388;

  __BB(1388):
  _1388 = __PHI (__BB1387: _1387);
  if (_1388 != _1388)
    goto __BB1389;
  else
    goto __BB1389;

  __BB(1389):
  _1389 = __PHI (__BB1388: _1388);
  if (_1389 != _1389)
    goto __BB1390;
  else
    goto __BB1390;

  __BB(1390):
  _1390 = __PHI (__BB1389: _1389);
  if (_1390 != _1390)
    goto __BB1391;
  else
    goto __BB1391;

  __BB(1391):
  _1391 = __PHI (__BB1390: _1390);
  if (_1391 != _1391)
    goto __BB1392;
  else
    goto __BB1392;

  __BB(1392):
  _1392 = __PHI (__BB1391: _1391);
  if (_1392 != _1392)
    goto __BB1393;
  else
    goto __BB1393;

  __BB(1393):
  _1393 = __PHI (__BB1392: _1392);
  if (_1393 != _1393)
    goto __BB1394;
  else
    goto __BB1394;

  __BB(1394):
  _1394 = __PHI (__BB1393: _1393);
  if (_1394 != _1394)
    goto __BB1395;
  else
    goto __BB1395;

  __BB(1395):
  _1395 = __PHI (__BB1394: _1394);
  if (_1395 != _1395)
    goto __BB1396;
  else
    goto __BB1396;

  __BB(1396):
  _1396 = __PHI (__BB1395: _1395);
  if (_1396 != _1396)
    goto __BB1397;
  else
    goto __BB1397;

  __BB(1397):
  _1397 = __PHI (__BB1396: _1396);
  if (_1397 != _1397)
    goto __BB1398;
  else
    goto __BB1398;

  __BB(1398):
  _1398 = __PHI (__BB1397: _1397);
  if (_1398 != _1398)
    goto __BB1399;
  else
    goto __BB1399;

  __BB(1399):
  _1399 = __PHI (__BB1398: _1398);
  if (_1399 != _1399)
    goto __BB1400;
  else
    goto __BB1400;

  __BB(1400):
  _1400 = __PHI (__BB1399: _1399);
  if (_1400 != _1400)
    goto __BB1401;
  else
    goto __BB1401;

  __BB(1401):
  _1401 = __PHI (__BB1400: _1400);
  if (_1401 != _1401)
    goto __BB1402;
  else
    goto __BB1402;

  __BB(1402):
  _1402 = __PHI (__BB1401: _1401);
  if (_1402 != _1402)
    goto __BB1403;
  else
    goto __BB1403;

  __BB(1403):
  _1403 = __PHI (__BB1402: _1402);
  if (_1403 != _1403)
    goto __BB1404;
  else
    goto __BB1404;

  __BB(1404):
  _1404 = __PHI (__BB1403: _1403);
  if (_1404 != _1404)
    goto __BB1405;
  else
    goto __BB1405;

  __BB(1405):
  _1405 = __PHI (__BB1404: _1404);
  if (_1405 != _1405)
    goto __BB1406;
  else
    goto __BB1406;

  __BB(1406):
  _1406 = __PHI (__BB1405: _1405);
  if (_1406 != _1406)
    goto __BB1407;
  else
    goto __BB1407;

  __BB(1407):
  _1407 = __PHI (__BB1406: _1406);
  if (_1407 != _1407)
    goto __BB1408;
  else
    goto __BB1408;

  __BB(1408):
  _1408 = __PHI (__BB1407: _1407);
  if (_1408 != _1408)
    goto __BB1409;
  else
    goto __BB1409;

  __BB(1409):
  _1409 = __PHI (__BB1408: _1408);
  if (_1409 != _1409)
    goto __BB1410;
  else
    goto __BB1410;

  __BB(1410):
  _1410 = __PHI (__BB1409: _1409);
  if (_1410 != _1410)
    goto __BB1411;
  else
    goto __BB1411;

  __BB(1411):
  _1411 = __PHI (__BB1410: _1410);
  if (_1411 != _1411)
    goto __BB1412;
  else
    goto __BB1412;

  __BB(1412):
  _1412 = __PHI (__BB1411: _1411);
  if (_1412 != _1412)
    goto __BB1413;
  else
    goto __BB1413;

  __BB(1413):
  _1413 = __PHI (__BB1412: _1412);
  if (_1413 != _1413)
    goto __BB1414;
  else
    goto __BB1414;

  __BB(1414):
  _1414 = __PHI (__BB1413: _1413);
  if (_1414 != _1414)
    goto __BB1415;
  else
    goto __BB1415;

  __BB(1415):
  _1415 = __PHI (__BB1414: _1414);
  if (_1415 != _1415)
    goto __BB1416;
  else
    goto __BB1416;

  __BB(1416):
  _1416 = __PHI (__BB1415: _1415);
  if (_1416 != _1416)
    goto __BB1417;
  else
    goto __BB1417;

  __BB(1417):
  _1417 = __PHI (__BB1416: _1416);
  if (_1417 != _1417)
    goto __BB1418;
  else
    goto __BB1418;

  __BB(1418):
  _1418 = __PHI (__BB1417: _1417);
  if (_1418 != _1418)
    goto __BB1419;
  else
    goto __BB1419;

  __BB(1419):
  _1419 = __PHI (__BB1418: _1418);
  if (_1419 != _1419)
    goto __BB1420;
  else
    goto __BB1420;

  __BB(1420):
  _1420 = __PHI (__BB1419: _1419);
  if (_1420 != _1420)
    goto __BB1421;
  else
    goto __BB1421;

  __BB(1421):
  _1421 = __PHI (__BB1420: _1420);
  if (_1421 != _1421)
    goto __BB1422;
  else
    goto __BB1422;

  __BB(1422):
  _1422 = __PHI (__BB1421: _1421);
  if (_1422 != _1422)
    goto __BB1423;
  else
    goto __BB1423;

  __BB(1423):
  _1423 = __PHI (__BB1422: _1422);
  if (_1423 != _1423)
    goto __BB1424;
  else
    goto __BB1424;

  __BB(1424):
  _1424 = __PHI (__BB1423: _1423);
  if (_1424 != _1424)
    goto __BB1425;
  else
    goto __BB1425;

  __BB(1425):
  _1425 = __PHI (__BB1424: _1424);
  if (_1425 != _1425)
    goto __BB1426;
  else
    goto __BB1426;

  __BB(1426):
  _1426 = __PHI (__BB1425: _1425);
  if (_1426 != _1426)
    goto __BB1427;
  else
    goto __BB1427;

  __BB(1427):
  _1427 = __PHI (__BB1426: _1426);
  if (_1427 != _1427)
    goto __BB1428;
  else
    goto __BB1428;

  __BB(1428):
  _1428 = __PHI (__BB1427: _1427);
  if (_1428 != _1428)
    goto __BB1429;
  else
    goto __BB1429;

  __BB(1429):
  _1429 = __PHI (__BB1428: _1428);
  if (_1429 != _1429)
    goto __BB1430;
  else
    goto __BB1430;

  __BB(1430):
  _1430 = __PHI (__BB1429: _1429);
  if (_1430 != _1430)
    goto __BB1431;
  else
    goto __BB1431;

  __BB(1431):
  _1431 = __PHI (__BB1430: _1430);
  if (_1431 != _1431)
    goto __BB1432;
  else
    goto __BB1432;

  __BB(1432):
  _1432 = __PHI (__BB1431: _1431);
  if (_1432 != _1432)
    goto __BB1433;
  else
    goto __BB1433;

  __BB(1433):
  _1433 = __PHI (__BB1432: _1432);
  if (_1433 != _1433)
    goto __BB1434;
  else
    goto __BB1434;

  __BB(1434):
  _1434 = __PHI (__BB1433: _1433);
  if (_1434 != _1434)
    goto __BB1435;
  else
    goto __BB1435;

  __BB(1435):
  _1435 = __PHI (__BB1434: _1434);
  if (_1435 != _1435)
    goto __BB1436;
  else
    goto __BB1436;

  __BB(1436):
  _1436 = __PHI (__BB1435: _1435);
  if (_1436 != _1436)
    goto __BB1437;
  else
    goto __BB1437;

  __BB(1437):
  _1437 = __PHI (__BB1436: _1436);
  if (_1437 != _1437)
    goto __BB1438;
  else
    goto __BB1438;

  __BB(1438):
  _1438 = __PHI (__BB1437: _1437);
  if (_1438 != _1438)
    goto __BB1439;
  else
    goto __BB1439;

  __BB(1439):
  _1439 = __PHI (__BB1438: _1438);
  if (_1439 != _1439)
    goto __BB1440;
  else
    goto __BB1440;

  __BB(1440):
  _1440 = __PHI (__BB1439: _1439);
  if (_1440 != _1440)
    goto __BB1441;
  else
    goto __BB1441;

  __BB(1441):
  _1441 = __PHI (__BB1440: _1440);
  if (_1441 != _1441)
    goto __BB1442;
  else
    goto __BB1442;

  __BB(1442):
  _1442 = __PHI (__BB1441: _1441);
  if (_1442 != _1442)
    goto __BB1443;
  else
    goto __BB1443;

  __BB(1443):
  _1443 = __PHI (__BB1442: _1442);
  if (_1443 != _1443)
    goto __BB1444;
  else
    goto __BB1444;

  __BB(1444):
  _1444 = __PHI (__BB1443: _1443);
  if (_1444 != _1444)
    goto __BB1445;
  else
    goto __BB1445;

  __BB(1445):
  _1445 = __PHI (__BB1444: _1444);
  if (_1445 != _1445)
    goto __BB1446;
  else
    goto __BB1446;

  __BB(1446):
  _1446 = __PHI (__BB1445: _1445);
  if (_1446 != _1446)
    goto __BB1447;
  else
    goto __BB1447;

  __BB(1447):
  _1447 = __PHI (__BB1446: _1446);
  if (_1447 != _1447)
    goto __BB1448;
  else
    goto __BB1448;

  __BB(1448):
  _1448 = __PHI (__BB1447: _1447);
  if (_1448 != _1448)
    goto __BB1449;
  else
    goto __BB1449;

  __BB(1449):
  _1449 = __PHI (__BB1448: _1448);
  if (_1449 != _1449)
    goto __BB1450;
  else
    goto __BB1450;

  __BB(1450):
  _1450 = __PHI (__BB1449: _1449);
  if (_1450 != _1450)
    goto __BB1451;
  else
    goto __BB1451;

  __BB(1451):
  _1451 = __PHI (__BB1450: _1450);
  if (_1451 != _1451)
    goto __BB1452;
  else
    goto __BB1452;

  __BB(1452):
  _1452 = __PHI (__BB1451: _1451);
  if (_1452 != _1452)
    goto __BB1453;
  else
    goto __BB1453;

  __BB(1453):
  _1453 = __PHI (__BB1452: _1452);
  if (_1453 != _1453)
    goto __BB1454;
  else
    goto __BB1454;

  __BB(1454):
  _1454 = __PHI (__BB1453: _1453);
  if (_1454 != _1454)
    goto __BB1455;
  else
    goto __BB1455;

  __BB(1455):
  _1455 = __PHI (__BB1454: _1454);
  if (_1455 != _1455)
    goto __BB1456;
  else
    goto __BB1456;

  __BB(1456):
  _1456 = __PHI (__BB1455: _1455);
  if (_1456 != _1456)
    goto __BB1457;
  else
    goto __BB1457;

  __BB(1457):
  _1457 = __PHI (__BB1456: _1456);
  if (_1457 != _1457)
    goto __BB1458;
  else
    goto __BB1458;

  __BB(1458):
  _1458 = __PHI (__BB1457: _1457);
  if (_1458 != _1458)
    goto __BB1459;
  else
    goto __BB1459;

  __BB(1459):
  _1459 = __PHI (__BB1458: _1458);
  if (_1459 != _1459)
    goto __BB1460;
  else
    goto __BB1460;

  __BB(1460):
  _1460 = __PHI (__BB1459: _1459);
  if (_1460 != _1460)
    goto __BB1461;
  else
    goto __BB1461;

  __BB(1461):
  _1461 = __PHI (__BB1460: _1460);
  if (_1461 != _1461)
    goto __BB1462;
  else
    goto __BB1462;

  __BB(1462):
  _1462 = __PHI (__BB1461: _1461);
  if (_1462 != _1462)
    goto __BB1463;
  else
    goto __BB1463;

  __BB(1463):
  _1463 = __PHI (__BB1462: _1462);
  if (_1463 != _1463)
    goto __BB1464;
  else
    goto __BB1464;

  __BB(1464):
  _1464 = __PHI (__BB1463: _1463);
  if (_1464 != _1464)
    goto __BB1465;
  else
    goto __BB1465;

  __BB(1465):
  _1465 = __PHI (__BB1464: _1464);
  if (_1465 != _1465)
    goto __BB1466;
  else
    goto __BB1466;

  __BB(1466):
  _1466 = __PHI (__BB1465: _1465);
  if (_1466 != _1466)
    goto __BB1467;
  else
    goto __BB1467;

  __BB(1467):
  _1467 = __PHI (__BB1466: _1466);
  if (_1467 != _1467)
    goto __BB1468;
  else
    goto __BB1468;

  __BB(1468):
  _1468 = __PHI (__BB1467: _1467);
  if (_1468 != _1468)
    goto __BB1469;
  else
    goto __BB1469;

  __BB(1469):
  _1469 = __PHI (__BB1468: _1468);
  if (_1469 != _1469)
    goto __BB1470;
  else
    goto __BB1470;

  __BB(1470):
  _1470 = __PHI (__BB1469: _1469);
  if (_1470 != _1470)
    goto __BB1471;
  else
    goto __BB1471;

  __BB(1471):
  _1471 = __PHI (__BB1470: _1470);
  if (_1471 != _1471)
    goto __BB1472;
  else
    goto __BB1472;

  __BB(1472):
  _1472 = __PHI (__BB1471: _1471);
  if (_1472 != _1472)
    goto __BB1473;
  else
    goto __BB1473;

  __BB(1473):
  _1473 = __PHI (__BB1472: _1472);
  if (_1473 != _1473)
    goto __BB1474;
  else
    goto __BB1474;

  __BB(1474):
  _1474 = __PHI (__BB1473: _1473);
  if (_1474 != _1474)
    goto __BB1475;
  else
    goto __BB1475;

  __BB(1475):
  _1475 = __PHI (__BB1474: _1474);
  if (_1475 != _1475)
    goto __BB1476;
  else
    goto __BB1476;

  __BB(1476):
  _1476 = __PHI (__BB1475: _1475);
  if (_1476 != _1476)
    goto __BB1477;
  else
    goto __BB1477;

  __BB(1477):
  _1477 = __PHI (__BB1476: _1476);
  if (_1477 != _1477)
    goto __BB1478;
  else
    goto __BB1478;

  __BB(1478):
  _1478 = __PHI (__BB1477: _1477);
  if (_1478 != _1478)
    goto __BB1479;
  else
    goto __BB1479;

  __BB(1479):
  _1479 = __PHI (__BB1478: _1478);
  if (_1479 != _1479)
    goto __BB1480;
  else
    goto __BB1480;

  __BB(1480):
  _1480 = __PHI (__BB1479: _1479);
  if (_1480 != _1480)
    goto __BB1481;
  else
    goto __BB1481;

  __BB(1481):
  _1481 = __PHI (__BB1480: _1480);
  if (_1481 != _1481)
    goto __BB1482;
  else
    goto __BB1482;

  __BB(1482):
  _1482 = __PHI (__BB1481: _1481);
  if (_1482 != _1482)
    goto __BB1483;
  else
    goto __BB1483;

  __BB(1483):
  _1483 = __PHI (__BB1482: _1482);
  if (_1483 != _1483)
    goto __BB1484;
  else
    goto __BB1484;

  __BB(1484):
  _1484 = __PHI (__BB1483: _1483);
  if (_1484 != _1484)
    goto __BB1485;
  else
    goto __BB1485;

  __BB(1485):
  _1485 = __PHI (__BB1484: _1484);
  if (_1485 != _1485)
    goto __BB1486;
  else
    goto __BB1486;

  __BB(1486):
  _1486 = __PHI (__BB1485: _1485);
  if (_1486 != _1486)
    goto __BB1487;
  else
    goto __BB1487;

  __BB(1487):
  _1487 = __PHI (__BB1486: _1486);
  if (_1487 != _1487)
    goto __BB1488;
  else
    goto __BB1488;

  __BB(1488):
  _1488 = __PHI (__BB1487: _1487);
  if (_1488 != _1488)
    goto __BB1489;
  else
    goto __BB1489;

  __BB(1489):
  _1489 = __PHI (__BB1488: _1488);
  if (_1489 != _1489)
    goto __BB1490;
  else
    goto __BB1490;

  __BB(1490):
  _1490 = __PHI (__BB1489: _1489);
  if (_1490 != _1490)
    goto __BB1491;
  else
    goto __BB1491;

  __BB(1491):
  _1491 = __PHI (__BB1490: _1490);
  if (_1491 != _1491)
    goto __BB1492;
  else
    goto __BB1492;

  __BB(1492):
  _1492 = __PHI (__BB1491: _1491);
  if (_1492 != _1492)
    goto __BB1493;
  else
    goto __BB1493;

  __BB(1493):
  _1493 = __PHI (__BB1492: _1492);
  if (_1493 != _1493)
    goto __BB1494;
  else
    goto __BB1494;

  __BB(1494):
  _1494 = __PHI (__BB1493: _1493);
  if (_1494 != _1494)
    goto __BB1495;
  else
    goto __BB1495;

  __BB(1495):
  _1495 = __PHI (__BB1494: _1494);
  if (_1495 != _1495)
    goto __BB1496;
  else
    goto __BB1496;

  __BB(1496):
  _1496 = __PHI (__BB1495: _1495);
  if (_1496 != _1496)
    goto __BB1497;
  else
    goto __BB1497;

  __BB(1497):
  _1497 = __PHI (__BB1496: _1496);
  if (_1497 != _1497)
    goto __BB1498;
  else
    goto __BB1498;

  __BB(1498):
  _1498 = __PHI (__BB1497: _1497);
  if (_1498 != _1498)
    goto __BB1499;
  else
    goto __BB1499;

  __BB(1499):
  _1499 = __PHI (__BB1498: _1498);
  if (_1499 != _1499)
    goto __BB1500;
  else
    goto __BB1500;

  __BB(1500):
  _1500 = __PHI (__BB1499: _1499);
  if (_1500 != _1500)
    goto __BB1501;
  else
    goto __BB1501;

  __BB(1501):
  _1501 = __PHI (__BB1500: _1500);
  if (_1501 != _1501)
    goto __BB1502;
  else
    goto __BB1502;

  __BB(1502):
  _1502 = __PHI (__BB1501: _1501);
  if (_1502 != _1502)
    goto __BB1503;
  else
    goto __BB1503;

  __BB(1503):
  _1503 = __PHI (__BB1502: _1502);
  if (_1503 != _1503)
    goto __BB1504;
  else
    goto __BB1504;

  __BB(1504):
  _1504 = __PHI (__BB1503: _1503);
  if (_1504 != _1504)
    goto __BB1505;
  else
    goto __BB1505;

  __BB(1505):
  _1505 = __PHI (__BB1504: _1504);
  if (_1505 != _1505)
    goto __BB1506;
  else
    goto __BB1506;

  __BB(1506):
  _1506 = __PHI (__BB1505: _1505);
  if (_1506 != _1506)
    goto __BB1507;
  else
    goto __BB1507;

  __BB(1507):
  _1507 = __PHI (__BB1506: _1506);
  if (_1507 != _1507)
    goto __BB1508;
  else
    goto __BB1508;

  __BB(1508):
  _1508 = __PHI (__BB1507: _1507);
  if (_1508 != _1508)
    goto __BB1509;
  else
    goto __BB1509;

  __BB(1509):
  _1509 = __PHI (__BB1508: _1508);
  if (_1509 != _1509)
    goto __BB1510;
  else
    goto __BB1510;

  __BB(1510):
  _1510 = __PHI (__BB1509: _1509);
  if (_1510 != _1510)
    goto __BB1511;
  else
    goto __BB1511;

  __BB(1511):
  _1511 = __PHI (__BB1510: _1510);
  if (_1511 != _1511)
    goto __BB1512;
  else
    goto __BB1512;

  __BB(1512):
  _1512 = __PHI (__BB1511: _1511);
  if (_1512 != _1512)
    goto __BB1513;
  else
    goto __BB1513;

  __BB(1513):
  _1513 = __PHI (__BB1512: _1512);
  if (_1513 != _1513)
    goto __BB1514;
  else
    goto __BB1514;

  __BB(1514):
  _1514 = __PHI (__BB1513: _1513);
  if (_1514 != _1514)
    goto __BB1515;
  else
    goto __BB1515;

  __BB(1515):
  _1515 = __PHI (__BB1514: _1514);
  if (_1515 != _1515)
    goto __BB1516;
  else
    goto __BB1516;

  __BB(1516):
  _1516 = __PHI (__BB1515: _1515);
  if (_1516 != _1516)
    goto __BB1517;
  else
    goto __BB1517;

  __BB(1517):
  _1517 = __PHI (__BB1516: _1516);
  if (_1517 != _1517)
    goto __BB1518;
  else
    goto __BB1518;

  __BB(1518):
  _1518 = __PHI (__BB1517: _1517);
  if (_1518 != _1518)
    goto __BB1519;
  else
    goto __BB1519;

  __BB(1519):
  _1519 = __PHI (__BB1518: _1518);
  if (_1519 != _1519)
    goto __BB1520;
  else
    goto __BB1520;

  __BB(1520):
  _1520 = __PHI (__BB1519: _1519);
  if (_1520 != _1520)
    goto __BB1521;
  else
    goto __BB1521;

  __BB(1521):
  _1521 = __PHI (__BB1520: _1520);
  if (_1521 != _1521)
    goto __BB1522;
  else
    goto __BB1522;

  __BB(1522):
  _1522 = __PHI (__BB1521: _1521);
  if (_1522 != _1522)
    goto __BB1523;
  else
    goto __BB1523;

  __BB(1523):
  _1523 = __PHI (__BB1522: _1522);
  if (_1523 != _1523)
    goto __BB1524;
  else
    goto __BB1524;

  __BB(1524):
  _1524 = __PHI (__BB1523: _1523);
  if (_1524 != _1524)
    goto __BB1525;
  else
    goto __BB1525;

  __BB(1525):
  _1525 = __PHI (__BB1524: _1524);
  if (_1525 != _1525)
    goto __BB1526;
  else
    goto __BB1526;

  __BB(1526):
  _1526 = __PHI (__BB1525: _1525);
  if (_1526 != _1526)
    goto __BB1527;
  else
    goto __BB1527;

  __BB(1527):
  _1527 = __PHI (__BB1526: _1526);
  if (_1527 != _1527)
    goto __BB1528;
  else
    goto __BB1528;

  __BB(1528):
  _1528 = __PHI (__BB1527: _1527);
  if (_1528 != _1528)
    goto __BB1529;
  else
    goto __BB1529;

  __BB(1529):
  _1529 = __PHI (__BB1528: _1528);
  if (_1529 != _1529)
    goto __BB1530;
  else
    goto __BB1530;

  __BB(1530):
  _1530 = __PHI (__BB1529: _1529);
  if (_1530 != _1530)
    goto __BB1531;
  else
    goto __BB1531;

  __BB(1531):
  _1531 = __PHI (__BB1530: _1530);
  if (_1531 != _1531)
    goto __BB1532;
  else
    goto __BB1532;

  __BB(1532):
  _1532 = __PHI (__BB1531: _1531);
  if (_1532 != _1532)
    goto __BB1533;
  else
    goto __BB1533;

  __BB(1533):
  _1533 = __PHI (__BB1532: _1532);
  if (_1533 != _1533)
    goto __BB1534;
  else
    goto __BB1534;

  __BB(1534):
  _1534 = __PHI (__BB1533: _1533);
  if (_1534 != _1534)
    goto __BB1535;
  else
    goto __BB1535;

  __BB(1535):
  _1535 = __PHI (__BB1534: _1534);
  if (_1535 != _1535)
    goto __BB1536;
  else
    goto __BB1536;

  __BB(1536):
  _1536 = __PHI (__BB1535: _1535);
  if (_1536 != _1536)
    goto __BB1537;
  else
    goto __BB1537;

  __BB(1537):
  _1537 = __PHI (__BB1536: _1536);
  if (_1537 != _1537)
    goto __BB1538;
  else
    goto __BB1538;

  __BB(1538):
  _1538 = __PHI (__BB1537: _1537);
  if (_1538 != _1538)
    goto __BB1539;
  else
    goto __BB1539;

  __BB(1539):
  _1539 = __PHI (__BB1538: _1538);
  if (_1539 != _1539)
    goto __BB1540;
  else
    goto __BB1540;

  __BB(1540):
  _1540 = __PHI (__BB1539: _1539);
  if (_1540 != _1540)
    goto __BB1541;
  else
    goto __BB1541;

  __BB(1541):
  _1541 = __PHI (__BB1540: _1540);
  if (_1541 != _1541)
    goto __BB1542;
  else
    goto __BB1542;

  __BB(1542):
  _1542 = __PHI (__BB1541: _1541);
  if (_1542 != _1542)
    goto __BB1543;
  else
    goto __BB1543;

  __BB(1543):
  _1543 = __PHI (__BB1542: _1542);
  if (_1543 != _1543)
    goto __BB1544;
  else
    goto __BB1544;

  __BB(1544):
  _1544 = __PHI (__BB1543: _1543);
  if (_1544 != _1544)
    goto __BB1545;
  else
    goto __BB1545;

  __BB(1545):
  _1545 = __PHI (__BB1544: _1544);
  if (_1545 != _1545)
    goto __BB1546;
  else
    goto __BB1546;

  __BB(1546):
  _1546 = __PHI (__BB1545: _1545);
  if (_1546 != _1546)
    goto __BB1547;
  else
    goto __BB1547;

  __BB(1547):
  _1547 = __PHI (__BB1546: _1546);
  if (_1547 != _1547)
    goto __BB1548;
  else
    goto __BB1548;

  __BB(1548):
  _1548 = __PHI (__BB1547: _1547);
  if (_1548 != _1548)
    goto __BB1549;
  else
    goto __BB1549;

  __BB(1549):
  _1549 = __PHI (__BB1548: _1548);
  if (_1549 != _1549)
    goto __BB1550;
  else
    goto __BB1550;

  __BB(1550):
  _1550 = __PHI (__BB1549: _1549);
  if (_1550 != _1550)
    goto __BB1551;
  else
    goto __BB1551;

  __BB(1551):
  _1551 = __PHI (__BB1550: _1550);
  if (_1551 != _1551)
    goto __BB1552;
  else
    goto __BB1552;

  __BB(1552):
  _1552 = __PHI (__BB1551: _1551);
  if (_1552 != _1552)
    goto __BB1553;
  else
    goto __BB1553;

  __BB(1553):
  _1553 = __PHI (__BB1552: _1552);
  if (_1553 != _1553)
    goto __BB1554;
  else
    goto __BB1554;

  __BB(1554):
  _1554 = __PHI (__BB1553: _1553);
  if (_1554 != _1554)
    goto __BB1555;
  else
    goto __BB1555;

  __BB(1555):
  _1555 = __PHI (__BB1554: _1554);
  if (_1555 != _1555)
    goto __BB1556;
  else
    goto __BB1556;

  __BB(1556):
  _1556 = __PHI (__BB1555: _1555);
  if (_1556 != _1556)
    goto __BB1557;
  else
    goto __BB1557;

  __BB(1557):
  _1557 = __PHI (__BB1556: _1556);
  if (_1557 != _1557)
    goto __BB1558;
  else
    goto __BB1558;

  __BB(1558):
  _1558 = __PHI (__BB1557: _1557);
  if (_1558 != _1558)
    goto __BB1559;
  else
    goto __BB1559;

  __BB(1559):
  _1559 = __PHI (__BB1558: _1558);
  if (_1559 != _1559)
    goto __BB1560;
  else
    goto __BB1560;

  __BB(1560):
  _1560 = __PHI (__BB1559: _1559);
  if (_1560 != _1560)
    goto __BB1561;
  else
    goto __BB1561;

  __BB(1561):
  _1561 = __PHI (__BB1560: _1560);
  if (_1561 != _1561)
    goto __BB1562;
  else
    goto __BB1562;

  __BB(1562):
  _1562 = __PHI (__BB1561: _1561);
  if (_1562 != _1562)
    goto __BB1563;
  else
    goto __BB1563;

  __BB(1563):
  _1563 = __PHI (__BB1562: _1562);
  if (_1563 != _1563)
    goto __BB1564;
  else
    goto __BB1564;

  __BB(1564):
  _1564 = __PHI (__BB1563: _1563);
  if (_1564 != _1564)
    goto __BB1565;
  else
    goto __BB1565;

  __BB(1565):
  _1565 = __PHI (__BB1564: _1564);
  if (_1565 != _1565)
    goto __BB1566;
  else
    goto __BB1566;

  __BB(1566):
  _1566 = __PHI (__BB1565: _1565);
  if (_1566 != _1566)
    goto __BB1567;
  else
    goto __BB1567;

  __BB(1567):
  _1567 = __PHI (__BB1566: _1566);
  if (_1567 != _1567)
    goto __BB1568;
  else
    goto __BB1568;

  __BB(1568):
  _1568 = __PHI (__BB1567: _1567);
  if (_1568 != _1568)
    goto __BB1569;
  else
    goto __BB1569;

  __BB(1569):
  _1569 = __PHI (__BB1568: _1568);
  if (_1569 != _1569)
    goto __BB1570;
  else
    goto __BB1570;

  __BB(1570):
  _1570 = __PHI (__BB1569: _1569);
  if (_1570 != _1570)
    goto __BB1571;
  else
    goto __BB1571;

  __BB(1571):
  _1571 = __PHI (__BB1570: _1570);
  if (_1571 != _1571)
    goto __BB1572;
  else
    goto __BB1572;

  __BB(1572):
  _1572 = __PHI (__BB1571: _1571);
  if (_1572 != _1572)
    goto __BB1573;
  else
    goto __BB1573;

  __BB(1573):
  _1573 = __PHI (__BB1572: _1572);
  if (_1573 != _1573)
    goto __BB1574;
  else
    goto __BB1574;

  __BB(1574):
  _1574 = __PHI (__BB1573: _1573);
  if (_1574 != _1574)
    goto __BB1575;
  else
    goto __BB1575;

  __BB(1575):
  _1575 = __PHI (__BB1574: _1574);
  if (_1575 != _1575)
    goto __BB1576;
  else
    goto __BB1576;

  __BB(1576):
  _1576 = __PHI (__BB1575: _1575);
  if (_1576 != _1576)
    goto __BB1577;
  else
    goto __BB1577;

  __BB(1577):
  _1577 = __PHI (__BB1576: _1576);
  if (_1577 != _1577)
    goto __BB1578;
  else
    goto __BB1578;

  __BB(1578):
  _1578 = __PHI (__BB1577: _1577);
  if (_1578 != _1578)
    goto __BB1579;
  else
    goto __BB1579;

  __BB(1579):
  _1579 = __PHI (__BB1578: _1578);
  if (_1579 != _1579)
    goto __BB1580;
  else
    goto __BB1580;

  __BB(1580):
  _1580 = __PHI (__BB1579: _1579);
  if (_1580 != _1580)
    goto __BB1581;
  else
    goto __BB1581;

  __BB(1581):
  _1581 = __PHI (__BB1580: _1580);
  if (_1581 != _1581)
    goto __BB1582;
  else
    goto __BB1582;

  __BB(1582):
  _1582 = __PHI (__BB1581: _1581);
  if (_1582 != _1582)
    goto __BB1583;
  else
    goto __BB1583;

  __BB(1583):
  _1583 = __PHI (__BB1582: _1582);
  if (_1583 != _1583)
    goto __BB1584;
  else
    goto __BB1584;

  __BB(1584):
  _1584 = __PHI (__BB1583: _1583);
  if (_1584 != _1584)
    goto __BB1585;
  else
    goto __BB1585;

  __BB(1585):
  _1585 = __PHI (__BB1584: _1584);
  if (_1585 != _1585)
    goto __BB1586;
  else
    goto __BB1586;

  __BB(1586):
  _1586 = __PHI (__BB1585: _1585);
  if (_1586 != _1586)
    goto __BB1587;
  else
    goto __BB1587;

  __BB(1587):
  _1587 = __PHI (__BB1586: _1586);
  if (_1587 != _1587)
    goto __BB1588;
  else
    goto __BB1588;

  __BB(1588):
  _1588 = __PHI (__BB1587: _1587);
  if (_1588 != _1588)
    goto __BB1589;
  else
    goto __BB1589;

  __BB(1589):
  _1589 = __PHI (__BB1588: _1588);
  if (_1589 != _1589)
    goto __BB1590;
  else
    goto __BB1590;

  __BB(1590):
  _1590 = __PHI (__BB1589: _1589);
  if (_1590 != _1590)
    goto __BB1591;
  else
    goto __BB1591;

  __BB(1591):
  _1591 = __PHI (__BB1590: _1590);
  if (_1591 != _1591)
    goto __BB1592;
  else
    goto __BB1592;

  __BB(1592):
  _1592 = __PHI (__BB1591: _1591);
  if (_1592 != _1592)
    goto __BB1593;
  else
    goto __BB1593;

  __BB(1593):
  _1593 = __PHI (__BB1592: _1592);
  if (_1593 != _1593)
    goto __BB1594;
  else
    goto __BB1594;

  __BB(1594):
  _1594 = __PHI (__BB1593: _1593);
  if (_1594 != _1594)
    goto __BB1595;
  else
    goto __BB1595;

  __BB(1595):
  _1595 = __PHI (__BB1594: _1594);
  if (_1595 != _1595)
    goto __BB1596;
  else
    goto __BB1596;

  __BB(1596):
  _1596 = __PHI (__BB1595: _1595);
  if (_1596 != _1596)
    goto __BB1597;
  else
    goto __BB1597;

  __BB(1597):
  _1597 = __PHI (__BB1596: _1596);
  if (_1597 != _1597)
    goto __BB1598;
  else
    goto __BB1598;

  __BB(1598):
  _1598 = __PHI (__BB1597: _1597);
  if (_1598 != _1598)
    goto __BB1599;
  else
    goto __BB1599;

  __BB(1599):
  _1599 = __PHI (__BB1598: _1598);
  if (_1599 != _1599)
    goto __BB1600;
  else
    goto __BB1600;

  __BB(1600):
  _1600 = __PHI (__BB1599: _1599);
  if (_1600 != _1600)
    goto __BB1601;
  else
    goto __BB1601;

  __BB(1601):
  _1601 = __PHI (__BB1600: _1600);
  if (_1601 != _1601)
    goto __BB1602;
  else
    goto __BB1602;

  __BB(1602):
  _1602 = __PHI (__BB1601: _1601);
  if (_1602 != _1602)
    goto __BB1603;
  else
    goto __BB1603;

  __BB(1603):
  _1603 = __PHI (__BB1602: _1602);
  if (_1603 != _1603)
    goto __BB1604;
  else
    goto __BB1604;

  __BB(1604):
  _1604 = __PHI (__BB1603: _1603);
  if (_1604 != _1604)
    goto __BB1605;
  else
    goto __BB1605;

  __BB(1605):
  _1605 = __PHI (__BB1604: _1604);
  if (_1605 != _1605)
    goto __BB1606;
  else
    goto __BB1606;

  __BB(1606):
  _1606 = __PHI (__BB1605: _1605);
  if (_1606 != _1606)
    goto __BB1607;
  else
    goto __BB1607;

  __BB(1607):
  _1607 = __PHI (__BB1606: _1606);
  if (_1607 != _1607)
    goto __BB1608;
  else
    goto __BB1608;

  __BB(1608):
  _1608 = __PHI (__BB1607: _1607);
  if (_1608 != _1608)
    goto __BB1609;
  else
    goto __BB1609;

  __BB(1609):
  _1609 = __PHI (__BB1608: _1608);
  if (_1609 != _1609)
    goto __BB1610;
  else
    goto __BB1610;

  __BB(1610):
  _1610 = __PHI (__BB1609: _1609);
  if (_1610 != _1610)
    goto __BB1611;
  else
    goto __BB1611;

  __BB(1611):
  _1611 = __PHI (__BB1610: _1610);
  if (_1611 != _1611)
    goto __BB1612;
  else
    goto __BB1612;

  __BB(1612):
  _1612 = __PHI (__BB1611: _1611);
  if (_1612 != _1612)
    goto __BB1613;
  else
    goto __BB1613;

  __BB(1613):
  _1613 = __PHI (__BB1612: _1612);
  if (_1613 != _1613)
    goto __BB1614;
  else
    goto __BB1614;

  __BB(1614):
  _1614 = __PHI (__BB1613: _1613);
  if (_1614 != _1614)
    goto __BB1615;
  else
    goto __BB1615;

  __BB(1615):
  _1615 = __PHI (__BB1614: _1614);
  if (_1615 != _1615)
    goto __BB1616;
  else
    goto __BB1616;

  __BB(1616):
  _1616 = __PHI (__BB1615: _1615);
  if (_1616 != _1616)
    goto __BB1617;
  else
    goto __BB1617;

  __BB(1617):
  _1617 = __PHI (__BB1616: _1616);
  if (_1617 != _1617)
    goto __BB1618;
  else
    goto __BB1618;

  __BB(1618):
  _1618 = __PHI (__BB1617: _1617);
  if (_1618 != _1618)
    goto __BB1619;
  else
    goto __BB1619;

  __BB(1619):
  _1619 = __PHI (__BB1618: _1618);
  if (_1619 != _1619)
    goto __BB1620;
  else
    goto __BB1620;

  __BB(1620):
  _1620 = __PHI (__BB1619: _1619);
  if (_1620 != _1620)
    goto __BB1621;
  else
    goto __BB1621;

  __BB(1621):
  _1621 = __PHI (__BB1620: _1620);
  if (_1621 != _1621)
    goto __BB1622;
  else
    goto __BB1622;

  __BB(1622):
  _1622 = __PHI (__BB1621: _1621);
  if (_1622 != _1622)
    goto __BB1623;
  else
    goto __BB1623;

  __BB(1623):
  _1623 = __PHI (__BB1622: _1622);
  if (_1623 != _1623)
    goto __BB1624;
  else
    goto __BB1624;

  __BB(1624):
  _1624 = __PHI (__BB1623: _1623);
  if (_1624 != _1624)
    goto __BB1625;
  else
    goto __BB1625;

  __BB(1625):
  _1625 = __PHI (__BB1624: _1624);
  if (_1625 != _1625)
    goto __BB1626;
  else
    goto __BB1626;

  __BB(1626):
  _1626 = __PHI (__BB1625: _1625);
  if (_1626 != _1626)
    goto __BB1627;
  else
    goto __BB1627;

  __BB(1627):
  _1627 = __PHI (__BB1626: _1626);
  if (_1627 != _1627)
    goto __BB1628;
  else
    goto __BB1628;

  __BB(1628):
  _1628 = __PHI (__BB1627: _1627);
  if (_1628 != _1628)
    goto __BB1629;
  else
    goto __BB1629;

  __BB(1629):
  _1629 = __PHI (__BB1628: _1628);
  if (_1629 != _1629)
    goto __BB1630;
  else
    goto __BB1630;

  __BB(1630):
  _1630 = __PHI (__BB1629: _1629);
  if (_1630 != _1630)
    goto __BB1631;
  else
    goto __BB1631;

  __BB(1631):
  _1631 = __PHI (__BB1630: _1630);
  if (_1631 != _1631)
    goto __BB1632;
  else
    goto __BB1632;

  __BB(1632):
  _1632 = __PHI (__BB1631: _1631);
  if (_1632 != _1632)
    goto __BB1633;
  else
    goto __BB1633;

  __BB(1633):
  _1633 = __PHI (__BB1632: _1632);
  if (_1633 != _1633)
    goto __BB1634;
  else
    goto __BB1634;

  __BB(1634):
  _1634 = __PHI (__BB1633: _1633);
  if (_1634 != _1634)
    goto __BB1635;
  else
    goto __BB1635;

  __BB(1635):
  _1635 = __PHI (__BB1634: _1634);
  if (_1635 != _1635)
    goto __BB1636;
  else
    goto __BB1636;

  __BB(1636):
  _1636 = __PHI (__BB1635: _1635);
  if (_1636 != _1636)
    goto __BB1637;
  else
    goto __BB1637;

  __BB(1637):
  _1637 = __PHI (__BB1636: _1636);
  if (_1637 != _1637)
    goto __BB1638;
  else
    goto __BB1638;

  __BB(1638):
  _1638 = __PHI (__BB1637: _1637);
  if (_1638 != _1638)
    goto __BB1639;
  else
    goto __BB1639;

  __BB(1639):
  _1639 = __PHI (__BB1638: _1638);
  if (_1639 != _1639)
    goto __BB1640;
  else
    goto __BB1640;

  __BB(1640):
  _1640 = __PHI (__BB1639: _1639);
  if (_1640 != _1640)
    goto __BB1641;
  else
    goto __BB1641;

  __BB(1641):
  _1641 = __PHI (__BB1640: _1640);
  if (_1641 != _1641)
    goto __BB1642;
  else
    goto __BB1642;

  __BB(1642):
  _1642 = __PHI (__BB1641: _1641);
  if (_1642 != _1642)
    goto __BB1643;
  else
    goto __BB1643;

  __BB(1643):
  _1643 = __PHI (__BB1642: _1642);
  if (_1643 != _1643)
    goto __BB1644;
  else
    goto __BB1644;

  __BB(1644):
  _1644 = __PHI (__BB1643: _1643);
  if (_1644 != _1644)
    goto __BB1645;
  else
    goto __BB1645;

  __BB(1645):
  _1645 = __PHI (__BB1644: _1644);
  if (_1645 != _1645)
    goto __BB1646;
  else
    goto __BB1646;

  __BB(1646):
  _1646 = __PHI (__BB1645: _1645);
  if (_1646 != _1646)
    goto __BB1647;
  else
    goto __BB1647;

  __BB(1647):
  _1647 = __PHI (__BB1646: _1646);
  if (_1647 != _1647)
    goto __BB1648;
  else
    goto __BB1648;

  __BB(1648):
  _1648 = __PHI (__BB1647: _1647);
  if (_1648 != _1648)
    goto __BB1649;
  else
    goto __BB1649;

  __BB(1649):
  _1649 = __PHI (__BB1648: _1648);
  if (_1649 != _1649)
    goto __BB1650;
  else
    goto __BB1650;

  __BB(1650):
  _1650 = __PHI (__BB1649: _1649);
  if (_1650 != _1650)
    goto __BB1651;
  else
    goto __BB1651;

  __BB(1651):
  _1651 = __PHI (__BB1650: _1650);
  if (_1651 != _1651)
    goto __BB1652;
  else
    goto __BB1652;

  __BB(1652):
  _1652 = __PHI (__BB1651: _1651);
  if (_1652 != _1652)
    goto __BB1653;
  else
    goto __BB1653;

  __BB(1653):
  _1653 = __PHI (__BB1652: _1652);
  if (_1653 != _1653)
    goto __BB1654;
  else
    goto __BB1654;

  __BB(1654):
  _1654 = __PHI (__BB1653: _1653);
  if (_1654 != _1654)
    goto __BB1655;
  else
    goto __BB1655;

  __BB(1655):
  _1655 = __PHI (__BB1654: _1654);
  if (_1655 != _1655)
    goto __BB1656;
  else
    goto __BB1656;

  __BB(1656):
  _1656 = __PHI (__BB1655: _1655);
  if (_1656 != _1656)
    goto __BB1657;
  else
    goto __BB1657;

  __BB(1657):
  _1657 = __PHI (__BB1656: _1656);
  if (_1657 != _1657)
    goto __BB1658;
  else
    goto __BB1658;

  __BB(1658):
  _1658 = __PHI (__BB1657: _1657);
  if (_1658 != _1658)
    goto __BB1659;
  else
    goto __BB1659;

  __BB(1659):
  _1659 = __PHI (__BB1658: _1658);
  if (_1659 != _1659)
    goto __BB1660;
  else
    goto __BB1660;

  __BB(1660):
  _1660 = __PHI (__BB1659: _1659);
  if (_1660 != _1660)
    goto __BB1661;
  else
    goto __BB1661;

  __BB(1661):
  _1661 = __PHI (__BB1660: _1660);
  if (_1661 != _1661)
    goto __BB1662;
  else
    goto __BB1662;

  __BB(1662):
  _1662 = __PHI (__BB1661: _1661);
  if (_1662 != _1662)
    goto __BB1663;
  else
    goto __BB1663;

  __BB(1663):
  _1663 = __PHI (__BB1662: _1662);
  if (_1663 != _1663)
    goto __BB1664;
  else
    goto __BB1664;

  __BB(1664):
  _1664 = __PHI (__BB1663: _1663);
  if (_1664 != _1664)
    goto __BB1665;
  else
    goto __BB1665;

  __BB(1665):
  _1665 = __PHI (__BB1664: _1664);
  if (_1665 != _1665)
    goto __BB1666;
  else
    goto __BB1666;

  __BB(1666):
  _1666 = __PHI (__BB1665: _1665);
  if (_1666 != _1666)
    goto __BB1667;
  else
    goto __BB1667;

  __BB(1667):
  _1667 = __PHI (__BB1666: _1666);
  if (_1667 != _1667)
    goto __BB1668;
  else
    goto __BB1668;

  __BB(1668):
  _1668 = __PHI (__BB1667: _1667);
  if (_1668 != _1668)
    goto __BB1669;
  else
    goto __BB1669;

  __BB(1669):
  _1669 = __PHI (__BB1668: _1668);
  if (_1669 != _1669)
    goto __BB1670;
  else
    goto __BB1670;

  __BB(1670):
  _1670 = __PHI (__BB1669: _1669);
  if (_1670 != _1670)
    goto __BB1671;
  else
    goto __BB1671;

  __BB(1671):
  _1671 = __PHI (__BB1670: _1670);
  if (_1671 != _1671)
    goto __BB1672;
  else
    goto __BB1672;

  __BB(1672):
  _1672 = __PHI (__BB1671: _1671);
  if (_1672 != _1672)
    goto __BB1673;
  else
    goto __BB1673;

  __BB(1673):
  _1673 = __PHI (__BB1672: _1672);
  if (_1673 != _1673)
    goto __BB1674;
  else
    goto __BB1674;

  __BB(1674):
  _1674 = __PHI (__BB1673: _1673);
  if (_1674 != _1674)
    goto __BB1675;
  else
    goto __BB1675;

  __BB(1675):
  _1675 = __PHI (__BB1674: _1674);
  if (_1675 != _1675)
    goto __BB1676;
  else
    goto __BB1676;

  __BB(1676):
  _1676 = __PHI (__BB1675: _1675);
  if (_1676 != _1676)
    goto __BB1677;
  else
    goto __BB1677;

  __BB(1677):
  _1677 = __PHI (__BB1676: _1676);
  if (_1677 != _1677)
    goto __BB1678;
  else
    goto __BB1678;

  __BB(1678):
  _1678 = __PHI (__BB1677: _1677);
  if (_1678 != _1678)
    goto __BB1679;
  else
    goto __BB1679;

  __BB(1679):
  _1679 = __PHI (__BB1678: _1678);
  if (_1679 != _1679)
    goto __BB1680;
  else
    goto __BB1680;

  __BB(1680):
  _1680 = __PHI (__BB1679: _1679);
  if (_1680 != _1680)
    goto __BB1681;
  else
    goto __BB1681;

  __BB(1681):
  _1681 = __PHI (__BB1680: _1680);
  if (_1681 != _1681)
    goto __BB1682;
  else
    goto __BB1682;

  __BB(1682):
  _1682 = __PHI (__BB1681: _1681);
  if (_1682 != _1682)
    goto __BB1683;
  else
    goto __BB1683;

  __BB(1683):
  _1683 = __PHI (__BB1682: _1682);
  if (_1683 != _1683)
    goto __BB1684;
  else
    goto __BB1684;

  __BB(1684):
  _1684 = __PHI (__BB1683: _1683);
  if (_1684 != _1684)
    goto __BB1685;
  else
    goto __BB1685;

  __BB(1685):
  _1685 = __PHI (__BB1684: _1684);
  if (_1685 != _1685)
    goto __BB1686;
  else
    goto __BB1686;

  __BB(1686):
  _1686 = __PHI (__BB1685: _1685);
  if (_1686 != _1686)
    goto __BB1687;
  else
    goto __BB1687;

  __BB(1687):
  _1687 = __PHI (__BB1686: _1686);
  if (_1687 != _1687)
    goto __BB1688;
  else
    goto __BB1688;

  __BB(1688):
  _1688 = __PHI (__BB1687: _1687);
  if (_1688 != _1688)
    goto __BB1689;
  else
    goto __BB1689;

  __BB(1689):
  _1689 = __PHI (__BB1688: _1688);
  if (_1689 != _1689)
    goto __BB1690;
  else
    goto __BB1690;

  __BB(1690):
  _1690 = __PHI (__BB1689: _1689);
  if (_1690 != _1690)
    goto __BB1691;
  else
    goto __BB1691;

  __BB(1691):
  _1691 = __PHI (__BB1690: _1690);
  if (_1691 != _1691)
    goto __BB1692;
  else
    goto __BB1692;

  __BB(1692):
  _1692 = __PHI (__BB1691: _1691);
  if (_1692 != _1692)
    goto __BB1693;
  else
    goto __BB1693;

  __BB(1693):
  _1693 = __PHI (__BB1692: _1692);
  if (_1693 != _1693)
    goto __BB1694;
  else
    goto __BB1694;

  __BB(1694):
  _1694 = __PHI (__BB1693: _1693);
  if (_1694 != _1694)
    goto __BB1695;
  else
    goto __BB1695;

  __BB(1695):
  _1695 = __PHI (__BB1694: _1694);
  if (_1695 != _1695)
    goto __BB1696;
  else
    goto __BB1696;

  __BB(1696):
  _1696 = __PHI (__BB1695: _1695);
  if (_1696 != _1696)
    goto __BB1697;
  else
    goto __BB1697;

  __BB(1697):
  _1697 = __PHI (__BB1696: _1696);
  if (_1697 != _1697)
    goto __BB1698;
  else
    goto __BB1698;

  __BB(1698):
  _1698 = __PHI (__BB1697: _1697);
  if (_1698 != _1698)
    goto __BB1699;
  else
    goto __BB1699;

  __BB(1699):
  _1699 = __PHI (__BB1698: _1698);
  if (_1699 != _1699)
    goto __BB1700;
  else
    goto __BB1700;

  __BB(1700):
  _1700 = __PHI (__BB1699: _1699);
  if (_1700 != _1700)
    goto __BB1701;
  else
    goto __BB1701;

  __BB(1701):
  _1701 = __PHI (__BB1700: _1700);
  if (_1701 != _1701)
    goto __BB1702;
  else
    goto __BB1702;

  __BB(1702):
  _1702 = __PHI (__BB1701: _1701);
  if (_1702 != _1702)
    goto __BB1703;
  else
    goto __BB1703;

  __BB(1703):
  _1703 = __PHI (__BB1702: _1702);
  if (_1703 != _1703)
    goto __BB1704;
  else
    goto __BB1704;

  __BB(1704):
  _1704 = __PHI (__BB1703: _1703);
  if (_1704 != _1704)
    goto __BB1705;
  else
    goto __BB1705;

  __BB(1705):
  _1705 = __PHI (__BB1704: _1704);
  if (_1705 != _1705)
    goto __BB1706;
  else
    goto __BB1706;

  __BB(1706):
  _1706 = __PHI (__BB1705: _1705);
  if (_1706 != _1706)
    goto __BB1707;
  else
    goto __BB1707;

  __BB(1707):
  _1707 = __PHI (__BB1706: _1706);
  if (_1707 != _1707)
    goto __BB1708;
  else
    goto __BB1708;

  __BB(1708):
  _1708 = __PHI (__BB1707: _1707);
  if (_1708 != _1708)
    goto __BB1709;
  else
    goto __BB1709;

  __BB(1709):
  _1709 = __PHI (__BB1708: _1708);
  if (_1709 != _1709)
    goto __BB1710;
  else
    goto __BB1710;

  __BB(1710):
  _1710 = __PHI (__BB1709: _1709);
  if (_1710 != _1710)
    goto __BB1711;
  else
    goto __BB1711;

  __BB(1711):
  _1711 = __PHI (__BB1710: _1710);
  if (_1711 != _1711)
    goto __BB1712;
  else
    goto __BB1712;

  __BB(1712):
  _1712 = __PHI (__BB1711: _1711);
  if (_1712 != _1712)
    goto __BB1713;
  else
    goto __BB1713;

  __BB(1713):
  _1713 = __PHI (__BB1712: _1712);
  if (_1713 != _1713)
    goto __BB1714;
  else
    goto __BB1714;

  __BB(1714):
  _1714 = __PHI (__BB1713: _1713);
  if (_1714 != _1714)
    goto __BB1715;
  else
    goto __BB1715;

  __BB(1715):
  _1715 = __PHI (__BB1714: _1714);
  if (_1715 != _1715)
    goto __BB1716;
  else
    goto __BB1716;

  __BB(1716):
  _1716 = __PHI (__BB1715: _1715);
  if (_1716 != _1716)
    goto __BB1717;
  else
    goto __BB1717;

  __BB(1717):
  _1717 = __PHI (__BB1716: _1716);
  if (_1717 != _1717)
    goto __BB1718;
  else
    goto __BB1718;

  __BB(1718):
  _1718 = __PHI (__BB1717: _1717);
  if (_1718 != _1718)
    goto __BB1719;
  else
    goto __BB1719;

  __BB(1719):
  _1719 = __PHI (__BB1718: _1718);
  if (_1719 != _1719)
    goto __BB1720;
  else
    goto __BB1720;

  __BB(1720):
  _1720 = __PHI (__BB1719: _1719);
  if (_1720 != _1720)
    goto __BB1721;
  else
    goto __BB1721;

  __BB(1721):
  _1721 = __PHI (__BB1720: _1720);
  if (_1721 != _1721)
    goto __BB1722;
  else
    goto __BB1722;

  __BB(1722):
  _1722 = __PHI (__BB1721: _1721);
  if (_1722 != _1722)
    goto __BB1723;
  else
    goto __BB1723;

  __BB(1723):
  _1723 = __PHI (__BB1722: _1722);
  if (_1723 != _1723)
    goto __BB1724;
  else
    goto __BB1724;

  __BB(1724):
  _1724 = __PHI (__BB1723: _1723);
  if (_1724 != _1724)
    goto __BB1725;
  else
    goto __BB1725;

  __BB(1725):
  _1725 = __PHI (__BB1724: _1724);
  if (_1725 != _1725)
    goto __BB1726;
  else
    goto __BB1726;

  __BB(1726):
  _1726 = __PHI (__BB1725: _1725);
  if (_1726 != _1726)
    goto __BB1727;
  else
    goto __BB1727;

  __BB(1727):
  _1727 = __PHI (__BB1726: _1726);
  if (_1727 != _1727)
    goto __BB1728;
  else
    goto __BB1728;

  __BB(1728):
  _1728 = __PHI (__BB1727: _1727);
  if (_1728 != _1728)
    goto __BB1729;
  else
    goto __BB1729;

  __BB(1729):
  _1729 = __PHI (__BB1728: _1728);
  if (_1729 != _1729)
    goto __BB1730;
  else
    goto __BB1730;

  __BB(1730):
  _1730 = __PHI (__BB1729: _1729);
  if (_1730 != _1730)
    goto __BB1731;
  else
    goto __BB1731;

  __BB(1731):
  _1731 = __PHI (__BB1730: _1730);
  if (_1731 != _1731)
    goto __BB1732;
  else
    goto __BB1732;

  __BB(1732):
  _1732 = __PHI (__BB1731: _1731);
  if (_1732 != _1732)
    goto __BB1733;
  else
    goto __BB1733;

  __BB(1733):
  _1733 = __PHI (__BB1732: _1732);
  if (_1733 != _1733)
    goto __BB1734;
  else
    goto __BB1734;

  __BB(1734):
  _1734 = __PHI (__BB1733: _1733);
  if (_1734 != _1734)
    goto __BB1735;
  else
    goto __BB1735;

  __BB(1735):
  _1735 = __PHI (__BB1734: _1734);
  if (_1735 != _1735)
    goto __BB1736;
  else
    goto __BB1736;

  __BB(1736):
  _1736 = __PHI (__BB1735: _1735);
  if (_1736 != _1736)
    goto __BB1737;
  else
    goto __BB1737;

  __BB(1737):
  _1737 = __PHI (__BB1736: _1736);
  if (_1737 != _1737)
    goto __BB1738;
  else
    goto __BB1738;

  __BB(1738):
  _1738 = __PHI (__BB1737: _1737);
  if (_1738 != _1738)
    goto __BB1739;
  else
    goto __BB1739;

  __BB(1739):
  _1739 = __PHI (__BB1738: _1738);
  if (_1739 != _1739)
    goto __BB1740;
  else
    goto __BB1740;

  __BB(1740):
  _1740 = __PHI (__BB1739: _1739);
  if (_1740 != _1740)
    goto __BB1741;
  else
    goto __BB1741;

  __BB(1741):
  _1741 = __PHI (__BB1740: _1740);
  if (_1741 != _1741)
    goto __BB1742;
  else
    goto __BB1742;

  __BB(1742):
  _1742 = __PHI (__BB1741: _1741);
  if (_1742 != _1742)
    goto __BB1743;
  else
    goto __BB1743;

  __BB(1743):
  _1743 = __PHI (__BB1742: _1742);
  if (_1743 != _1743)
    goto __BB1744;
  else
    goto __BB1744;

  __BB(1744):
  _1744 = __PHI (__BB1743: _1743);
  if (_1744 != _1744)
    goto __BB1745;
  else
    goto __BB1745;

  __BB(1745):
  _1745 = __PHI (__BB1744: _1744);
  if (_1745 != _1745)
    goto __BB1746;
  else
    goto __BB1746;

  __BB(1746):
  _1746 = __PHI (__BB1745: _1745);
  if (_1746 != _1746)
    goto __BB1747;
  else
    goto __BB1747;

  __BB(1747):
  _1747 = __PHI (__BB1746: _1746);
  if (_1747 != _1747)
    goto __BB1748;
  else
    goto __BB1748;

  __BB(1748):
  _1748 = __PHI (__BB1747: _1747);
  if (_1748 != _1748)
    goto __BB1749;
  else
    goto __BB1749;

  __BB(1749):
  _1749 = __PHI (__BB1748: _1748);
  if (_1749 != _1749)
    goto __BB1750;
  else
    goto __BB1750;

  __BB(1750):
  _1750 = __PHI (__BB1749: _1749);
  if (_1750 != _1750)
    goto __BB1751;
  else
    goto __BB1751;

  __BB(1751):
  _1751 = __PHI (__BB1750: _1750);
  if (_1751 != _1751)
    goto __BB1752;
  else
    goto __BB1752;

  __BB(1752):
  _1752 = __PHI (__BB1751: _1751);
  if (_1752 != _1752)
    goto __BB1753;
  else
    goto __BB1753;

  __BB(1753):
  _1753 = __PHI (__BB1752: _1752);
  if (_1753 != _1753)
    goto __BB1754;
  else
    goto __BB1754;

  __BB(1754):
  _1754 = __PHI (__BB1753: _1753);
  if (_1754 != _1754)
    goto __BB1755;
  else
    goto __BB1755;

  __BB(1755):
  _1755 = __PHI (__BB1754: _1754);
  if (_1755 != _1755)
    goto __BB1756;
  else
    goto __BB1756;

  __BB(1756):
  _1756 = __PHI (__BB1755: _1755);
  if (_1756 != _1756)
    goto __BB1757;
  else
    goto __BB1757;

  __BB(1757):
  _1757 = __PHI (__BB1756: _1756);
  if (_1757 != _1757)
    goto __BB1758;
  else
    goto __BB1758;

  __BB(1758):
  _1758 = __PHI (__BB1757: _1757);
  if (_1758 != _1758)
    goto __BB1759;
  else
    goto __BB1759;

  __BB(1759):
  _1759 = __PHI (__BB1758: _1758);
  if (_1759 != _1759)
    goto __BB1760;
  else
    goto __BB1760;

  __BB(1760):
  _1760 = __PHI (__BB1759: _1759);
  if (_1760 != _1760)
    goto __BB1761;
  else
    goto __BB1761;

  __BB(1761):
  _1761 = __PHI (__BB1760: _1760);
  if (_1761 != _1761)
    goto __BB1762;
  else
    goto __BB1762;

  __BB(1762):
  _1762 = __PHI (__BB1761: _1761);
  if (_1762 != _1762)
    goto __BB1763;
  else
    goto __BB1763;

  __BB(1763):
  _1763 = __PHI (__BB1762: _1762);
  if (_1763 != _1763)
    goto __BB1764;
  else
    goto __BB1764;

  __BB(1764):
  _1764 = __PHI (__BB1763: _1763);
  if (_1764 != _1764)
    goto __BB1765;
  else
    goto __BB1765;

  __BB(1765):
  _1765 = __PHI (__BB1764: _1764);
  if (_1765 != _1765)
    goto __BB1766;
  else
    goto __BB1766;

  __BB(1766):
  _1766 = __PHI (__BB1765: _1765);
  if (_1766 != _1766)
    goto __BB1767;
  else
    goto __BB1767;

  __BB(1767):
  _1767 = __PHI (__BB1766: _1766);
  if (_1767 != _1767)
    goto __BB1768;
  else
    goto __BB1768;

  __BB(1768):
  _1768 = __PHI (__BB1767: _1767);
  if (_1768 != _1768)
    goto __BB1769;
  else
    goto __BB1769;

  __BB(1769):
  _1769 = __PHI (__BB1768: _1768);
  if (_1769 != _1769)
    goto __BB1770;
  else
    goto __BB1770;

  __BB(1770):
  _1770 = __PHI (__BB1769: _1769);
  if (_1770 != _1770)
    goto __BB1771;
  else
    goto __BB1771;

  __BB(1771):
  _1771 = __PHI (__BB1770: _1770);
  if (_1771 != _1771)
    goto __BB1772;
  else
    goto __BB1772;

  __BB(1772):
  _1772 = __PHI (__BB1771: _1771);
  if (_1772 != _1772)
    goto __BB1773;
  else
    goto __BB1773;

  __BB(1773):
  _1773 = __PHI (__BB1772: _1772);
  if (_1773 != _1773)
    goto __BB1774;
  else
    goto __BB1774;

  __BB(1774):
  _1774 = __PHI (__BB1773: _1773);
  if (_1774 != _1774)
    goto __BB1775;
  else
    goto __BB1775;

  __BB(1775):
  _1775 = __PHI (__BB1774: _1774);
  if (_1775 != _1775)
    goto __BB1776;
  else
    goto __BB1776;

  __BB(1776):
  _1776 = __PHI (__BB1775: _1775);
  if (_1776 != _1776)
    goto __BB1777;
  else
    goto __BB1777;

  __BB(1777):
  _1777 = __PHI (__BB1776: _1776);
  if (_1777 != _1777)
    goto __BB1778;
  else
    goto __BB1778;

  __BB(1778):
  _1778 = __PHI (__BB1777: _1777);
  if (_1778 != _1778)
    goto __BB1779;
  else
    goto __BB1779;

  __BB(1779):
  _1779 = __PHI (__BB1778: _1778);
  if (_1779 != _1779)
    goto __BB1780;
  else
    goto __BB1780;

  __BB(1780):
  _1780 = __PHI (__BB1779: _1779);
  if (_1780 != _1780)
    goto __BB1781;
  else
    goto __BB1781;

  __BB(1781):
  _1781 = __PHI (__BB1780: _1780);
  if (_1781 != _1781)
    goto __BB1782;
  else
    goto __BB1782;

  __BB(1782):
  _1782 = __PHI (__BB1781: _1781);
  if (_1782 != _1782)
    goto __BB1783;
  else
    goto __BB1783;

  __BB(1783):
  _1783 = __PHI (__BB1782: _1782);
  if (_1783 != _1783)
    goto __BB1784;
  else
    goto __BB1784;

  __BB(1784):
  _1784 = __PHI (__BB1783: _1783);
  if (_1784 != _1784)
    goto __BB1785;
  else
    goto __BB1785;

  __BB(1785):
  _1785 = __PHI (__BB1784: _1784);
  if (_1785 != _1785)
    goto __BB1786;
  else
    goto __BB1786;

  __BB(1786):
  _1786 = __PHI (__BB1785: _1785);
  if (_1786 != _1786)
    goto __BB1787;
  else
    goto __BB1787;

  __BB(1787):
  _1787 = __PHI (__BB1786: _1786);
  if (_1787 != _1787)
    goto __BB1788;
  else
    goto __BB1788;

  __BB(1788):
  _1788 = __PHI (__BB1787: _1787);
  if (_1788 != _1788)
    goto __BB1789;
  else
    goto __BB1789;

  __BB(1789):
  _1789 = __PHI (__BB1788: _1788);
  if (_1789 != _1789)
    goto __BB1790;
  else
    goto __BB1790;

  __BB(1790):
  _1790 = __PHI (__BB1789: _1789);
  if (_1790 != _1790)
    goto __BB1791;
  else
    goto __BB1791;

  __BB(1791):
  _1791 = __PHI (__BB1790: _1790);
  if (_1791 != _1791)
    goto __BB1792;
  else
    goto __BB1792;

  __BB(1792):
  _1792 = __PHI (__BB1791: _1791);
  if (_1792 != _1792)
    goto __BB1793;
  else
    goto __BB1793;

  __BB(1793):
  _1793 = __PHI (__BB1792: _1792);
  if (_1793 != _1793)
    goto __BB1794;
  else
    goto __BB1794;

  __BB(1794):
  _1794 = __PHI (__BB1793: _1793);
  if (_1794 != _1794)
    goto __BB1795;
  else
    goto __BB1795;

  __BB(1795):
  _1795 = __PHI (__BB1794: _1794);
  if (_1795 != _1795)
    goto __BB1796;
  else
    goto __BB1796;

  __BB(1796):
  _1796 = __PHI (__BB1795: _1795);
  if (_1796 != _1796)
    goto __BB1797;
  else
    goto __BB1797;

  __BB(1797):
  _1797 = __PHI (__BB1796: _1796);
  if (_1797 != _1797)
    goto __BB1798;
  else
    goto __BB1798;

  __BB(1798):
  _1798 = __PHI (__BB1797: _1797);
  if (_1798 != _1798)
    goto __BB1799;
  else
    goto __BB1799;

  __BB(1799):
  _1799 = __PHI (__BB1798: _1798);
  if (_1799 != _1799)
    goto __BB1800;
  else
    goto __BB1800;

  __BB(1800):
  _1800 = __PHI (__BB1799: _1799);
  if (_1800 != _1800)
    goto __BB1801;
  else
    goto __BB1801;

  __BB(1801):
  _1801 = __PHI (__BB1800: _1800);
  if (_1801 != _1801)
    goto __BB1802;
  else
    goto __BB1802;

  __BB(1802):
  _1802 = __PHI (__BB1801: _1801);
  if (_1802 != _1802)
    goto __BB1803;
  else
    goto __BB1803;

  __BB(1803):
  _1803 = __PHI (__BB1802: _1802);
  if (_1803 != _1803)
    goto __BB1804;
  else
    goto __BB1804;

  __BB(1804):
  _1804 = __PHI (__BB1803: _1803);
  if (_1804 != _1804)
    goto __BB1805;
  else
    goto __BB1805;

  __BB(1805):
  _1805 = __PHI (__BB1804: _1804);
  if (_1805 != _1805)
    goto __BB1806;
  else
    goto __BB1806;

  __BB(1806):
  _1806 = __PHI (__BB1805: _1805);
  if (_1806 != _1806)
    goto __BB1807;
  else
    goto __BB1807;

  __BB(1807):
  _1807 = __PHI (__BB1806: _1806);
  if (_1807 != _1807)
    goto __BB1808;
  else
    goto __BB1808;

  __BB(1808):
  _1808 = __PHI (__BB1807: _1807);
  if (_1808 != _1808)
    goto __BB1809;
  else
    goto __BB1809;

  __BB(1809):
  _1809 = __PHI (__BB1808: _1808);
  if (_1809 != _1809)
    goto __BB1810;
  else
    goto __BB1810;

  __BB(1810):
  _1810 = __PHI (__BB1809: _1809);
  if (_1810 != _1810)
    goto __BB1811;
  else
    goto __BB1811;

  __BB(1811):
  _1811 = __PHI (__BB1810: _1810);
  if (_1811 != _1811)
    goto __BB1812;
  else
    goto __BB1812;

  __BB(1812):
  _1812 = __PHI (__BB1811: _1811);
  if (_1812 != _1812)
    goto __BB1813;
  else
    goto __BB1813;

  __BB(1813):
  _1813 = __PHI (__BB1812: _1812);
  if (_1813 != _1813)
    goto __BB1814;
  else
    goto __BB1814;

  __BB(1814):
  _1814 = __PHI (__BB1813: _1813);
  if (_1814 != _1814)
    goto __BB1815;
  else
    goto __BB1815;

  __BB(1815):
  _1815 = __PHI (__BB1814: _1814);
  if (_1815 != _1815)
    goto __BB1816;
  else
    goto __BB1816;

  __BB(1816):
  _1816 = __PHI (__BB1815: _1815);
  if (_1816 != _1816)
    goto __BB1817;
  else
    goto __BB1817;

  __BB(1817):
  _1817 = __PHI (__BB1816: _1816);
  if (_1817 != _1817)
    goto __BB1818;
  else
    goto __BB1818;

  __BB(1818):
  _1818 = __PHI (__BB1817: _1817);
  if (_1818 != _1818)
    goto __BB1819;
  else
    goto __BB1819;

  __BB(1819):
  _1819 = __PHI (__BB1818: _1818);
  if (_1819 != _1819)
    goto __BB1820;
  else
    goto __BB1820;

  __BB(1820):
  _1820 = __PHI (__BB1819: _1819);
  if (_1820 != _1820)
    goto __BB1821;
  else
    goto __BB1821;

  __BB(1821):
  _1821 = __PHI (__BB1820: _1820);
  if (_1821 != _1821)
    goto __BB1822;
  else
    goto __BB1822;

  __BB(1822):
  _1822 = __PHI (__BB1821: _1821);
  if (_1822 != _1822)
    goto __BB1823;
  else
    goto __BB1823;

  __BB(1823):
  _1823 = __PHI (__BB1822: _1822);
  if (_1823 != _1823)
    goto __BB1824;
  else
    goto __BB1824;

  __BB(1824):
  _1824 = __PHI (__BB1823: _1823);
  if (_1824 != _1824)
    goto __BB1825;
  else
    goto __BB1825;

  __BB(1825):
  _1825 = __PHI (__BB1824: _1824);
  if (_1825 != _1825)
    goto __BB1826;
  else
    goto __BB1826;

  __BB(1826):
  _1826 = __PHI (__BB1825: _1825);
  if (_1826 != _1826)
    goto __BB1827;
  else
    goto __BB1827;

  __BB(1827):
  _1827 = __PHI (__BB1826: _1826);
  if (_1827 != _1827)
    goto __BB1828;
  else
    goto __BB1828;

  __BB(1828):
  _1828 = __PHI (__BB1827: _1827);
  if (_1828 != _1828)
    goto __BB1829;
  else
    goto __BB1829;

  __BB(1829):
  _1829 = __PHI (__BB1828: _1828);
  if (_1829 != _1829)
    goto __BB1830;
  else
    goto __BB1830;

  __BB(1830):
  _1830 = __PHI (__BB1829: _1829);
  if (_1830 != _1830)
    goto __BB1831;
  else
    goto __BB1831;

  __BB(1831):
  _1831 = __PHI (__BB1830: _1830);
  if (_1831 != _1831)
    goto __BB1832;
  else
    goto __BB1832;

  __BB(1832):
  _1832 = __PHI (__BB1831: _1831);
  if (_1832 != _1832)
    goto __BB1833;
  else
    goto __BB1833;

  __BB(1833):
  _1833 = __PHI (__BB1832: _1832);
  if (_1833 != _1833)
    goto __BB1834;
  else
    goto __BB1834;

  __BB(1834):
  _1834 = __PHI (__BB1833: _1833);
  if (_1834 != _1834)
    goto __BB1835;
  else
    goto __BB1835;

  __BB(1835):
  _1835 = __PHI (__BB1834: _1834);
  if (_1835 != _1835)
    goto __BB1836;
  else
    goto __BB1836;

  __BB(1836):
  _1836 = __PHI (__BB1835: _1835);
  if (_1836 != _1836)
    goto __BB1837;
  else
    goto __BB1837;

  __BB(1837):
  _1837 = __PHI (__BB1836: _1836);
  if (_1837 != _1837)
    goto __BB1838;
  else
    goto __BB1838;

  __BB(1838):
  _1838 = __PHI (__BB1837: _1837);
  if (_1838 != _1838)
    goto __BB1839;
  else
    goto __BB1839;

  __BB(1839):
  _1839 = __PHI (__BB1838: _1838);
  if (_1839 != _1839)
    goto __BB1840;
  else
    goto __BB1840;

  __BB(1840):
  _1840 = __PHI (__BB1839: _1839);
  if (_1840 != _1840)
    goto __BB1841;
  else
    goto __BB1841;

  __BB(1841):
  _1841 = __PHI (__BB1840: _1840);
  if (_1841 != _1841)
    goto __BB1842;
  else
    goto __BB1842;

  __BB(1842):
  _1842 = __PHI (__BB1841: _1841);
  if (_1842 != _1842)
    goto __BB1843;
  else
    goto __BB1843;

  __BB(1843):
  _1843 = __PHI (__BB1842: _1842);
  if (_1843 != _1843)
    goto __BB1844;
  else
    goto __BB1844;

  __BB(1844):
  _1844 = __PHI (__BB1843: _1843);
  if (_1844 != _1844)
    goto __BB1845;
  else
    goto __BB1845;

  __BB(1845):
  _1845 = __PHI (__BB1844: _1844);
  if (_1845 != _1845)
    goto __BB1846;
  else
    goto __BB1846;

  __BB(1846):
  _1846 = __PHI (__BB1845: _1845);
  if (_1846 != _1846)
    goto __BB1847;
  else
    goto __BB1847;

  __BB(1847):
  _1847 = __PHI (__BB1846: _1846);
  if (_1847 != _1847)
    goto __BB1848;
  else
    goto __BB1848;

  __BB(1848):
  _1848 = __PHI (__BB1847: _1847);
  if (_1848 != _1848)
    goto __BB1849;
  else
    goto __BB1849;

  __BB(1849):
  _1849 = __PHI (__BB1848: _1848);
  if (_1849 != _1849)
    goto __BB1850;
  else
    goto __BB1850;

  __BB(1850):
  _1850 = __PHI (__BB1849: _1849);
  if (_1850 != _1850)
    goto __BB1851;
  else
    goto __BB1851;

  __BB(1851):
  _1851 = __PHI (__BB1850: _1850);
  if (_1851 != _1851)
    goto __BB1852;
  else
    goto __BB1852;

  __BB(1852):
  _1852 = __PHI (__BB1851: _1851);
  if (_1852 != _1852)
    goto __BB1853;
  else
    goto __BB1853;

  __BB(1853):
  _1853 = __PHI (__BB1852: _1852);
  if (_1853 != _1853)
    goto __BB1854;
  else
    goto __BB1854;

  __BB(1854):
  _1854 = __PHI (__BB1853: _1853);
  if (_1854 != _1854)
    goto __BB1855;
  else
    goto __BB1855;

  __BB(1855):
  _1855 = __PHI (__BB1854: _1854);
  if (_1855 != _1855)
    goto __BB1856;
  else
    goto __BB1856;

  __BB(1856):
  _1856 = __PHI (__BB1855: _1855);
  if (_1856 != _1856)
    goto __BB1857;
  else
    goto __BB1857;

  __BB(1857):
  _1857 = __PHI (__BB1856: _1856);
  if (_1857 != _1857)
    goto __BB1858;
  else
    goto __BB1858;

  __BB(1858):
  _1858 = __PHI (__BB1857: _1857);
  if (_1858 != _1858)
    goto __BB1859;
  else
    goto __BB1859;

  __BB(1859):
  _1859 = __PHI (__BB1858: _1858);
  if (_1859 != _1859)
    goto __BB1860;
  else
    goto __BB1860;

  __BB(1860):
  _1860 = __PHI (__BB1859: _1859);
  if (_1860 != _1860)
    goto __BB1861;
  else
    goto __BB1861;

  __BB(1861):
  _1861 = __PHI (__BB1860: _1860);
  if (_1861 != _1861)
    goto __BB1862;
  else
    goto __BB1862;

  __BB(1862):
  _1862 = __PHI (__BB1861: _1861);
  if (_1862 != _1862)
    goto __BB1863;
  else
    goto __BB1863;

  __BB(1863):
  _1863 = __PHI (__BB1862: _1862);
  if (_1863 != _1863)
    goto __BB1864;
  else
    goto __BB1864;

  __BB(1864):
  _1864 = __PHI (__BB1863: _1863);
  if (_1864 != _1864)
    goto __BB1865;
  else
    goto __BB1865;

  __BB(1865):
  _1865 = __PHI (__BB1864: _1864);
  if (_1865 != _1865)
    goto __BB1866;
  else
    goto __BB1866;

  __BB(1866):
  _1866 = __PHI (__BB1865: _1865);
  if (_1866 != _1866)
    goto __BB1867;
  else
    goto __BB1867;

  __BB(1867):
  _1867 = __PHI (__BB1866: _1866);
  if (_1867 != _1867)
    goto __BB1868;
  else
    goto __BB1868;

  __BB(1868):
  _1868 = __PHI (__BB1867: _1867);
  if (_1868 != _1868)
    goto __BB1869;
  else
    goto __BB1869;

  __BB(1869):
  _1869 = __PHI (__BB1868: _1868);
  if (_1869 != _1869)
    goto __BB1870;
  else
    goto __BB1870;

  __BB(1870):
  _1870 = __PHI (__BB1869: _1869);
  if (_1870 != _1870)
    goto __BB1871;
  else
    goto __BB1871;

  __BB(1871):
  _1871 = __PHI (__BB1870: _1870);
  if (_1871 != _1871)
    goto __BB1872;
  else
    goto __BB1872;

  __BB(1872):
  _1872 = __PHI (__BB1871: _1871);
  if (_1872 != _1872)
    goto __BB1873;
  else
    goto __BB1873;

  __BB(1873):
  _1873 = __PHI (__BB1872: _1872);
  if (_1873 != _1873)
    goto __BB1874;
  else
    goto __BB1874;

  __BB(1874):
  _1874 = __PHI (__BB1873: _1873);
  if (_1874 != _1874)
    goto __BB1875;
  else
    goto __BB1875;

  __BB(1875):
  _1875 = __PHI (__BB1874: _1874);
  if (_1875 != _1875)
    goto __BB1876;
  else
    goto __BB1876;

  __BB(1876):
  _1876 = __PHI (__BB1875: _1875);
  if (_1876 != _1876)
    goto __BB1877;
  else
    goto __BB1877;

  __BB(1877):
  _1877 = __PHI (__BB1876: _1876);
  if (_1877 != _1877)
    goto __BB1878;
  else
    goto __BB1878;

  __BB(1878):
  _1878 = __PHI (__BB1877: _1877);
  if (_1878 != _1878)
    goto __BB1879;
  else
    goto __BB1879;

  __BB(1879):
  _1879 = __PHI (__BB1878: _1878);
  if (_1879 != _1879)
    goto __BB1880;
  else
    goto __BB1880;

  __BB(1880):
  _1880 = __PHI (__BB1879: _1879);
  if (_1880 != _1880)
    goto __BB1881;
  else
    goto __BB1881;

  __BB(1881):
  _1881 = __PHI (__BB1880: _1880);
  if (_1881 != _1881)
    goto __BB1882;
  else
    goto __BB1882;

  __BB(1882):
  _1882 = __PHI (__BB1881: _1881);
  if (_1882 != _1882)
    goto __BB1883;
  else
    goto __BB1883;

  __BB(1883):
  _1883 = __PHI (__BB1882: _1882);
  if (_1883 != _1883)
    goto __BB1884;
  else
    goto __BB1884;

  __BB(1884):
  _1884 = __PHI (__BB1883: _1883);
  if (_1884 != _1884)
    goto __BB1885;
  else
    goto __BB1885;

  __BB(1885):
  _1885 = __PHI (__BB1884: _1884);
  if (_1885 != _1885)
    goto __BB1886;
  else
    goto __BB1886;

  __BB(1886):
  _1886 = __PHI (__BB1885: _1885);
  if (_1886 != _1886)
    goto __BB1887;
  else
    goto __BB1887;

  __BB(1887):
  _1887 = __PHI (__BB1886: _1886);
  if (_1887 != _1887)
    goto __BB1888;
  else
    goto __BB1888;

  __BB(1888):
  _1888 = __PHI (__BB1887: _1887);
  if (_1888 != _1888)
    goto __BB1889;
  else
    goto __BB1889;

  __BB(1889):
  _1889 = __PHI (__BB1888: _1888);
  if (_1889 != _1889)
    goto __BB1890;
  else
    goto __BB1890;

  __BB(1890):
  _1890 = __PHI (__BB1889: _1889);
  if (_1890 != _1890)
    goto __BB1891;
  else
    goto __BB1891;

  __BB(1891):
  _1891 = __PHI (__BB1890: _1890);
  if (_1891 != _1891)
    goto __BB1892;
  else
    goto __BB1892;

  __BB(1892):
  _1892 = __PHI (__BB1891: _1891);
  if (_1892 != _1892)
    goto __BB1893;
  else
    goto __BB1893;

  __BB(1893):
  _1893 = __PHI (__BB1892: _1892);
  if (_1893 != _1893)
    goto __BB1894;
  else
    goto __BB1894;

  __BB(1894):
  _1894 = __PHI (__BB1893: _1893);
  if (_1894 != _1894)
    goto __BB1895;
  else
    goto __BB1895;

  __BB(1895):
  _1895 = __PHI (__BB1894: _1894);
  if (_1895 != _1895)
    goto __BB1896;
  else
    goto __BB1896;

  __BB(1896):
  _1896 = __PHI (__BB1895: _1895);
  if (_1896 != _1896)
    goto __BB1897;
  else
    goto __BB1897;

  __BB(1897):
  _1897 = __PHI (__BB1896: _1896);
  if (_1897 != _1897)
    goto __BB1898;
  else
    goto __BB1898;

  __BB(1898):
  _1898 = __PHI (__BB1897: _1897);
  if (_1898 != _1898)
    goto __BB1899;
  else
    goto __BB1899;

  __BB(1899):
  _1899 = __PHI (__BB1898: _1898);
  if (_1899 != _1899)
    goto __BB1900;
  else
    goto __BB1900;

  __BB(1900):
  _1900 = __PHI (__BB1899: _1899);
  if (_1900 != _1900)
    goto __BB1901;
  else
    goto __BB1901;

  __BB(1901):
  _1901 = __PHI (__BB1900: _1900);
  if (_1901 != _1901)
    goto __BB1902;
  else
    goto __BB1902;

  __BB(1902):
  _1902 = __PHI (__BB1901: _1901);
  if (_1902 != _1902)
    goto __BB1903;
  else
    goto __BB1903;

  __BB(1903):
  _1903 = __PHI (__BB1902: _1902);
  if (_1903 != _1903)
    goto __BB1904;
  else
    goto __BB1904;

  __BB(1904):
  _1904 = __PHI (__BB1903: _1903);
  if (_1904 != _1904)
    goto __BB1905;
  else
    goto __BB1905;

  __BB(1905):
  _1905 = __PHI (__BB1904: _1904);
  if (_1905 != _1905)
    goto __BB1906;
  else
    goto __BB1906;

  __BB(1906):
  _1906 = __PHI (__BB1905: _1905);
  if (_1906 != _1906)
    goto __BB1907;
  else
    goto __BB1907;

  __BB(1907):
  _1907 = __PHI (__BB1906: _1906);
  if (_1907 != _1907)
    goto __BB1908;
  else
    goto __BB1908;

  __BB(1908):
  _1908 = __PHI (__BB1907: _1907);
  if (_1908 != _1908)
    goto __BB1909;
  else
    goto __BB1909;

  __BB(1909):
  _1909 = __PHI (__BB1908: _1908);
  if (_1909 != _1909)
    goto __BB1910;
  else
    goto __BB1910;

  __BB(1910):
  _1910 = __PHI (__BB1909: _1909);
  if (_1910 != _1910)
    goto __BB1911;
  else
    goto __BB1911;

  __BB(1911):
  _1911 = __PHI (__BB1910: _1910);
  if (_1911 != _1911)
    goto __BB1912;
  else
    goto __BB1912;

  __BB(1912):
  _1912 = __PHI (__BB1911: _1911);
  if (_1912 != _1912)
    goto __BB1913;
  else
    goto __BB1913;

  __BB(1913):
  _1913 = __PHI (__BB1912: _1912);
  if (_1913 != _1913)
    goto __BB1914;
  else
    goto __BB1914;

  __BB(1914):
  _1914 = __PHI (__BB1913: _1913);
  if (_1914 != _1914)
    goto __BB1915;
  else
    goto __BB1915;

  __BB(1915):
  _1915 = __PHI (__BB1914: _1914);
  if (_1915 != _1915)
    goto __BB1916;
  else
    goto __BB1916;

  __BB(1916):
  _1916 = __PHI (__BB1915: _1915);
  if (_1916 != _1916)
    goto __BB1917;
  else
    goto __BB1917;

  __BB(1917):
  _1917 = __PHI (__BB1916: _1916);
  if (_1917 != _1917)
    goto __BB1918;
  else
    goto __BB1918;

  __BB(1918):
  _1918 = __PHI (__BB1917: _1917);
  if (_1918 != _1918)
    goto __BB1919;
  else
    goto __BB1919;

  __BB(1919):
  _1919 = __PHI (__BB1918: _1918);
  if (_1919 != _1919)
    goto __BB1920;
  else
    goto __BB1920;

  __BB(1920):
  _1920 = __PHI (__BB1919: _1919);
  if (_1920 != _1920)
    goto __BB1921;
  else
    goto __BB1921;

  __BB(1921):
  _1921 = __PHI (__BB1920: _1920);
  if (_1921 != _1921)
    goto __BB1922;
  else
    goto __BB1922;

  __BB(1922):
  _1922 = __PHI (__BB1921: _1921);
  if (_1922 != _1922)
    goto __BB1923;
  else
    goto __BB1923;

  __BB(1923):
  _1923 = __PHI (__BB1922: _1922);
  if (_1923 != _1923)
    goto __BB1924;
  else
    goto __BB1924;

  __BB(1924):
  _1924 = __PHI (__BB1923: _1923);
  if (_1924 != _1924)
    goto __BB1925;
  else
    goto __BB1925;

  __BB(1925):
  _1925 = __PHI (__BB1924: _1924);
  if (_1925 != _1925)
    goto __BB1926;
  else
    goto __BB1926;

  __BB(1926):
  _1926 = __PHI (__BB1925: _1925);
  if (_1926 != _1926)
    goto __BB1927;
  else
    goto __BB1927;

  __BB(1927):
  _1927 = __PHI (__BB1926: _1926);
  if (_1927 != _1927)
    goto __BB1928;
  else
    goto __BB1928;

  __BB(1928):
  _1928 = __PHI (__BB1927: _1927);
  if (_1928 != _1928)
    goto __BB1929;
  else
    goto __BB1929;

  __BB(1929):
  _1929 = __PHI (__BB1928: _1928);
  if (_1929 != _1929)
    goto __BB1930;
  else
    goto __BB1930;

  __BB(1930):
  _1930 = __PHI (__BB1929: _1929);
  if (_1930 != _1930)
    goto __BB1931;
  else
    goto __BB1931;

  __BB(1931):
  _1931 = __PHI (__BB1930: _1930);
  if (_1931 != _1931)
    goto __BB1932;
  else
    goto __BB1932;

  __BB(1932):
  _1932 = __PHI (__BB1931: _1931);
  if (_1932 != _1932)
    goto __BB1933;
  else
    goto __BB1933;

  __BB(1933):
  _1933 = __PHI (__BB1932: _1932);
  if (_1933 != _1933)
    goto __BB1934;
  else
    goto __BB1934;

  __BB(1934):
  _1934 = __PHI (__BB1933: _1933);
  if (_1934 != _1934)
    goto __BB1935;
  else
    goto __BB1935;

  __BB(1935):
  _1935 = __PHI (__BB1934: _1934);
  if (_1935 != _1935)
    goto __BB1936;
  else
    goto __BB1936;

  __BB(1936):
  _1936 = __PHI (__BB1935: _1935);
  if (_1936 != _1936)
    goto __BB1937;
  else
    goto __BB1937;

  __BB(1937):
  _1937 = __PHI (__BB1936: _1936);
  if (_1937 != _1937)
    goto __BB1938;
  else
    goto __BB1938;

  __BB(1938):
  _1938 = __PHI (__BB1937: _1937);
  if (_1938 != _1938)
    goto __BB1939;
  else
    goto __BB1939;

  __BB(1939):
  _1939 = __PHI (__BB1938: _1938);
  if (_1939 != _1939)
    goto __BB1940;
  else
    goto __BB1940;

  __BB(1940):
  _1940 = __PHI (__BB1939: _1939);
  if (_1940 != _1940)
    goto __BB1941;
  else
    goto __BB1941;

  __BB(1941):
  _1941 = __PHI (__BB1940: _1940);
  if (_1941 != _1941)
    goto __BB1942;
  else
    goto __BB1942;

  __BB(1942):
  _1942 = __PHI (__BB1941: _1941);
  if (_1942 != _1942)
    goto __BB1943;
  else
    goto __BB1943;

  __BB(1943):
  _1943 = __PHI (__BB1942: _1942);
  if (_1943 != _1943)
    goto __BB1944;
  else
    goto __BB1944;

  __BB(1944):
  _1944 = __PHI (__BB1943: _1943);
  if (_1944 != _1944)
    goto __BB1945;
  else
    goto __BB1945;

  __BB(1945):
  _1945 = __PHI (__BB1944: _1944);
  if (_1945 != _1945)
    goto __BB1946;
  else
    goto __BB1946;

  __BB(1946):
  _1946 = __PHI (__BB1945: _1945);
  if (_1946 != _1946)
    goto __BB1947;
  else
    goto __BB1947;

  __BB(1947):
  _1947 = __PHI (__BB1946: _1946);
  if (_1947 != _1947)
    goto __BB1948;
  else
    goto __BB1948;

  __BB(1948):
  _1948 = __PHI (__BB1947: _1947);
  if (_1948 != _1948)
    goto __BB1949;
  else
    goto __BB1949;

  __BB(1949):
  _1949 = __PHI (__BB1948: _1948);
  if (_1949 != _1949)
    goto __BB1950;
  else
    goto __BB1950;

  __BB(1950):
  _1950 = __PHI (__BB1949: _1949);
  if (_1950 != _1950)
    goto __BB1951;
  else
    goto __BB1951;

  __BB(1951):
  _1951 = __PHI (__BB1950: _1950);
  if (_1951 != _1951)
    goto __BB1952;
  else
    goto __BB1952;

  __BB(1952):
  _1952 = __PHI (__BB1951: _1951);
  if (_1952 != _1952)
    goto __BB1953;
  else
    goto __BB1953;

  __BB(1953):
  _1953 = __PHI (__BB1952: _1952);
  if (_1953 != _1953)
    goto __BB1954;
  else
    goto __BB1954;

  __BB(1954):
  _1954 = __PHI (__BB1953: _1953);
  if (_1954 != _1954)
    goto __BB1955;
  else
    goto __BB1955;

  __BB(1955):
  _1955 = __PHI (__BB1954: _1954);
  if (_1955 != _1955)
    goto __BB1956;
  else
    goto __BB1956;

  __BB(1956):
  _1956 = __PHI (__BB1955: _1955);
  if (_1956 != _1956)
    goto __BB1957;
  else
    goto __BB1957;

  __BB(1957):
  _1957 = __PHI (__BB1956: _1956);
  if (_1957 != _1957)
    goto __BB1958;
  else
    goto __BB1958;

  __BB(1958):
  _1958 = __PHI (__BB1957: _1957);
  if (_1958 != _1958)
    goto __BB1959;
  else
    goto __BB1959;

  __BB(1959):
  _1959 = __PHI (__BB1958: _1958);
  if (_1959 != _1959)
    goto __BB1960;
  else
    goto __BB1960;

  __BB(1960):
  _1960 = __PHI (__BB1959: _1959);
  if (_1960 != _1960)
    goto __BB1961;
  else
    goto __BB1961;

  __BB(1961):
  _1961 = __PHI (__BB1960: _1960);
  if (_1961 != _1961)
    goto __BB1962;
  else
    goto __BB1962;

  __BB(1962):
  _1962 = __PHI (__BB1961: _1961);
  if (_1962 != _1962)
    goto __BB1963;
  else
    goto __BB1963;

  __BB(1963):
  _1963 = __PHI (__BB1962: _1962);
  if (_1963 != _1963)
    goto __BB1964;
  else
    goto __BB1964;

  __BB(1964):
  _1964 = __PHI (__BB1963: _1963);
  if (_1964 != _1964)
    goto __BB1965;
  else
    goto __BB1965;

  __BB(1965):
  _1965 = __PHI (__BB1964: _1964);
  if (_1965 != _1965)
    goto __BB1966;
  else
    goto __BB1966;

  __BB(1966):
  _1966 = __PHI (__BB1965: _1965);
  if (_1966 != _1966)
    goto __BB1967;
  else
    goto __BB1967;

  __BB(1967):
  _1967 = __PHI (__BB1966: _1966);
  if (_1967 != _1967)
    goto __BB1968;
  else
    goto __BB1968;

  __BB(1968):
  _1968 = __PHI (__BB1967: _1967);
  if (_1968 != _1968)
    goto __BB1969;
  else
    goto __BB1969;

  __BB(1969):
  _1969 = __PHI (__BB1968: _1968);
  if (_1969 != _1969)
    goto __BB1970;
  else
    goto __BB1970;

  __BB(1970):
  _1970 = __PHI (__BB1969: _1969);
  if (_1970 != _1970)
    goto __BB1971;
  else
    goto __BB1971;

  __BB(1971):
  _1971 = __PHI (__BB1970: _1970);
  if (_1971 != _1971)
    goto __BB1972;
  else
    goto __BB1972;

  __BB(1972):
  _1972 = __PHI (__BB1971: _1971);
  if (_1972 != _1972)
    goto __BB1973;
  else
    goto __BB1973;

  __BB(1973):
  _1973 = __PHI (__BB1972: _1972);
  if (_1973 != _1973)
    goto __BB1974;
  else
    goto __BB1974;

  __BB(1974):
  _1974 = __PHI (__BB1973: _1973);
  if (_1974 != _1974)
    goto __BB1975;
  else
    goto __BB1975;

  __BB(1975):
  _1975 = __PHI (__BB1974: _1974);
  if (_1975 != _1975)
    goto __BB1976;
  else
    goto __BB1976;

  __BB(1976):
  _1976 = __PHI (__BB1975: _1975);
  if (_1976 != _1976)
    goto __BB1977;
  else
    goto __BB1977;

  __BB(1977):
  _1977 = __PHI (__BB1976: _1976);
  if (_1977 != _1977)
    goto __BB1978;
  else
    goto __BB1978;

  __BB(1978):
  _1978 = __PHI (__BB1977: _1977);
  if (_1978 != _1978)
    goto __BB1979;
  else
    goto __BB1979;

  __BB(1979):
  _1979 = __PHI (__BB1978: _1978);
  if (_1979 != _1979)
    goto __BB1980;
  else
    goto __BB1980;

  __BB(1980):
  _1980 = __PHI (__BB1979: _1979);
  if (_1980 != _1980)
    goto __BB1981;
  else
    goto __BB1981;

  __BB(1981):
  _1981 = __PHI (__BB1980: _1980);
  if (_1981 != _1981)
    goto __BB1982;
  else
    goto __BB1982;

  __BB(1982):
  _1982 = __PHI (__BB1981: _1981);
  if (_1982 != _1982)
    goto __BB1983;
  else
    goto __BB1983;

  __BB(1983):
  _1983 = __PHI (__BB1982: _1982);
  if (_1983 != _1983)
    goto __BB1984;
  else
    goto __BB1984;

  __BB(1984):
  _1984 = __PHI (__BB1983: _1983);
  if (_1984 != _1984)
    goto __BB1985;
  else
    goto __BB1985;

  __BB(1985):
  _1985 = __PHI (__BB1984: _1984);
  if (_1985 != _1985)
    goto __BB1986;
  else
    goto __BB1986;

  __BB(1986):
  _1986 = __PHI (__BB1985: _1985);
  if (_1986 != _1986)
    goto __BB1987;
  else
    goto __BB1987;

  __BB(1987):
  _1987 = __PHI (__BB1986: _1986);
  if (_1987 != _1987)
    goto __BB1988;
  else
    goto __BB1988;

  __BB(1988):
  _1988 = __PHI (__BB1987: _1987);
  if (_1988 != _1988)
    goto __BB1989;
  else
    goto __BB1989;

  __BB(1989):
  _1989 = __PHI (__BB1988: _1988);
  if (_1989 != _1989)
    goto __BB1990;
  else
    goto __BB1990;

  __BB(1990):
  _1990 = __PHI (__BB1989: _1989);
  if (_1990 != _1990)
    goto __BB1991;
  else
    goto __BB1991;

  __BB(1991):
  _1991 = __PHI (__BB1990: _1990);
  if (_1991 != _1991)
    goto __BB1992;
  else
    goto __BB1992;

  __BB(1992):
  _1992 = __PHI (__BB1991: _1991);
  if (_1992 != _1992)
    goto __BB1993;
  else
    goto __BB1993;

  __BB(1993):
  _1993 = __PHI (__BB1992: _1992);
  if (_1993 != _1993)
    goto __BB1994;
  else
    goto __BB1994;

  __BB(1994):
  _1994 = __PHI (__BB1993: _1993);
  if (_1994 != _1994)
    goto __BB1995;
  else
    goto __BB1995;

  __BB(1995):
  _1995 = __PHI (__BB1994: _1994);
  if (_1995 != _1995)
    goto __BB1996;
  else
    goto __BB1996;

  __BB(1996):
  _1996 = __PHI (__BB1995: _1995);
  if (_1996 != _1996)
    goto __BB1997;
  else
    goto __BB1997;

  __BB(1997):
  _1997 = __PHI (__BB1996: _1996);
  if (_1997 != _1997)
    goto __BB1998;
  else
    goto __BB1998;

  __BB(1998):
  _1998 = __PHI (__BB1997: _1997);
  if (_1998 != _1998)
    goto __BB1999;
  else
    goto __BB1999;

  __BB(1999):
  _1999 = __PHI (__BB1998: _1998);
  if (_1999 != _1999)
    goto __BB2000;
  else
    goto __BB2000;

  __BB(2000):
  _2000 = __PHI (__BB1999: _1999);
  if (_2000 != _2000)
    goto __BB2001;
  else
    goto __BB2001;

  __BB(2001):
  _2001 = __PHI (__BB2000: _2000);
  return _2001;
}
