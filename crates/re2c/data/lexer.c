/*!begin:re2c 1*/
const unsigned char *yyt1; const unsigned char *yyt2; const unsigned char *yyt3; const unsigned char *yyt4; const unsigned char *yyt5; const unsigned char *yyt6; const unsigned char *yyt7; const unsigned char *yyt8;
/*!end:re2c*/
/*!begin:re2c 2*/
/*!head:re2c 2 byte plain 8 0 0*/
/*!names:re2c 1 - 13:unsigned char 7:in->cur 7:YYLIMIT 7:in->mar 11:YYCTXMARKER 6:YYFILL 10:YYGETSTATE 10:YYSETSTATE 14:YYGETCONDITION 14:YYSETCONDITION 7:YYMTAGP 7:YYMTAGN 4:yych 8:yyaccept 3:yyt 4:yyc_ 3:yyc*/
{
	unsigned char yych;
	unsigned int yyaccept = 0;
yy2_0:
	yych = *in->cur;
	if (yych <= 0x2F) goto yy2_1;
	if (yych <= 0x62) goto yy2_7;
	if (yych <= 0x72) goto yy2_15;
	if (yych <= 0x7A) goto yy2_19;
	if (yych <= 0x7C) goto yy2_21;
	if (yych <= 0x7E) goto yy2_25;
	goto yy2_23;
yy2_1:
	if (yych <= 0x20) goto yy2_2;
	if (yych <= 0x27) goto yy2_4;
	if (yych <= 0x2C) goto yy2_6;
	if (yych <= 0x2D) goto yy2_29;
	if (yych <= 0x2E) goto yy2_25;
	goto yy2_30;
yy2_2:
	if (yych <= 0x0A) goto yy2_3;
	if (yych <= 0x0C) goto yy2_23;
	if (yych <= 0x0D) goto yy2_24;
	if (yych <= 0x1F) goto yy2_23;
	goto yy2_24;
yy2_3:
	if (yych <= 0x00) goto yy2_22;
	if (yych <= 0x08) goto yy2_23;
	goto yy2_24;
yy2_4:
	if (yych <= 0x24) goto yy2_5;
	if (yych <= 0x25) goto yy2_25;
	if (yych <= 0x26) goto yy2_27;
	goto yy2_23;
yy2_5:
	if (yych <= 0x21) goto yy2_25;
	if (yych <= 0x22) goto yy2_26;
	goto yy2_23;
yy2_6:
	if (yych <= 0x2A) goto yy2_25;
	if (yych <= 0x2B) goto yy2_28;
	goto yy2_25;
yy2_7:
	if (yych <= 0x40) goto yy2_8;
	if (yych <= 0x5E) goto yy2_12;
	if (yych <= 0x60) goto yy2_14;
	if (yych <= 0x61) goto yy2_36;
	goto yy2_37;
yy2_8:
	if (yych <= 0x3C) goto yy2_9;
	if (yych <= 0x3E) goto yy2_11;
	if (yych <= 0x3F) goto yy2_25;
	goto yy2_23;
yy2_9:
	if (yych <= 0x39) goto yy2_10;
	if (yych <= 0x3B) goto yy2_25;
	goto yy2_33;
yy2_10:
	if (yych <= 0x30) goto yy2_31;
	goto yy2_32;
yy2_11:
	if (yych <= 0x3D) goto yy2_34;
	goto yy2_35;
yy2_12:
	if (yych <= 0x5B) goto yy2_13;
	if (yych <= 0x5C) goto yy2_23;
	goto yy2_25;
yy2_13:
	if (yych <= 0x5A) goto yy2_36;
	goto yy2_25;
yy2_14:
	if (yych <= 0x5F) goto yy2_36;
	goto yy2_23;
yy2_15:
	if (yych <= 0x66) goto yy2_16;
	if (yych <= 0x69) goto yy2_18;
	if (yych <= 0x71) goto yy2_36;
	goto yy2_42;
yy2_16:
	if (yych <= 0x64) goto yy2_17;
	if (yych <= 0x65) goto yy2_39;
	goto yy2_40;
yy2_17:
	if (yych <= 0x63) goto yy2_38;
	goto yy2_36;
yy2_18:
	if (yych <= 0x68) goto yy2_36;
	goto yy2_41;
yy2_19:
	if (yych <= 0x76) goto yy2_20;
	if (yych <= 0x77) goto yy2_44;
	goto yy2_36;
yy2_20:
	if (yych <= 0x73) goto yy2_43;
	goto yy2_36;
yy2_21:
	if (yych <= 0x7B) goto yy2_25;
	goto yy2_45;
yy2_22:
	++in->cur;
	goto yy2_419;
yy2_23:
	++in->cur;
	goto yy2_420;
yy2_24:
	++in->cur;
	goto yy2_46;
yy2_25:
	++in->cur;
	goto yy2_422;
yy2_26:
	++in->cur;
	goto yy2_50;
yy2_27:
	++in->cur;
	goto yy2_55;
yy2_28:
	++in->cur;
	goto yy2_57;
yy2_29:
	++in->cur;
	goto yy2_59;
yy2_30:
	++in->cur;
	goto yy2_63;
yy2_31:
	yyt7 = in->cur;
	yyt8 = NULL;
	++in->cur;
	goto yy2_68;
yy2_32:
	yyt5 = in->cur;
	yyt6 = NULL;
	++in->cur;
	goto yy2_74;
yy2_33:
	++in->cur;
	goto yy2_78;
yy2_34:
	++in->cur;
	goto yy2_81;
yy2_35:
	++in->cur;
	goto yy2_83;
yy2_36:
	++in->cur;
	goto yy2_86;
yy2_37:
	++in->cur;
	goto yy2_91;
yy2_38:
	++in->cur;
	goto yy2_97;
yy2_39:
	++in->cur;
	goto yy2_105;
yy2_40:
	++in->cur;
	goto yy2_111;
yy2_41:
	++in->cur;
	goto yy2_117;
yy2_42:
	++in->cur;
	goto yy2_125;
yy2_43:
	++in->cur;
	goto yy2_131;
yy2_44:
	++in->cur;
	goto yy2_137;
yy2_45:
	++in->cur;
	goto yy2_143;
yy2_46:
	yych = *in->cur;
	if (yych <= 0x0C) goto yy2_47;
	if (yych <= 0x1F) goto yy2_48;
	if (yych <= 0x20) goto yy2_49;
	goto yy2_421;
yy2_47:
	if (yych <= 0x08) goto yy2_421;
	if (yych <= 0x0A) goto yy2_49;
	goto yy2_421;
yy2_48:
	if (yych <= 0x0D) goto yy2_49;
	goto yy2_421;
yy2_49:
	++in->cur;
	goto yy2_145;
yy2_50:
	yych = *in->cur;
	if (yych <= 0x21) goto yy2_51;
	if (yych <= 0x22) goto yy2_53;
	if (yych <= 0x5B) goto yy2_52;
	if (yych <= 0x5C) goto yy2_54;
	goto yy2_52;
yy2_51:
	if (yych <= 0x00) goto yy2_420;
	if (yych <= 0x09) goto yy2_52;
	if (yych <= 0x0A) goto yy2_420;
	goto yy2_52;
yy2_52:
	in->mar = in->cur;
	yyaccept = 1;
	++in->cur;
	goto yy2_149;
yy2_53:
	++in->cur;
	goto yy2_433;
yy2_54:
	in->mar = in->cur;
	yyaccept = 1;
	++in->cur;
	goto yy2_154;
yy2_55:
	yych = *in->cur;
	if (yych <= 0x25) goto yy2_423;
	if (yych <= 0x26) goto yy2_56;
	goto yy2_423;
yy2_56:
	++in->cur;
	goto yy2_434;
yy2_57:
	yych = *in->cur;
	if (yych <= 0x2A) goto yy2_424;
	if (yych <= 0x2B) goto yy2_58;
	goto yy2_424;
yy2_58:
	++in->cur;
	goto yy2_435;
yy2_59:
	yych = *in->cur;
	if (yych <= 0x2D) goto yy2_60;
	if (yych <= 0x3D) goto yy2_425;
	if (yych <= 0x3E) goto yy2_62;
	goto yy2_425;
yy2_60:
	if (yych <= 0x2C) goto yy2_425;
	goto yy2_61;
yy2_61:
	++in->cur;
	goto yy2_436;
yy2_62:
	++in->cur;
	goto yy2_437;
yy2_63:
	yych = *in->cur;
	if (yych <= 0x2F) goto yy2_64;
	goto yy2_426;
yy2_64:
	if (yych <= 0x2A) goto yy2_65;
	if (yych <= 0x2E) goto yy2_426;
	goto yy2_67;
yy2_65:
	if (yych <= 0x29) goto yy2_426;
	goto yy2_66;
yy2_66:
	in->mar = in->cur;
	yyaccept = 2;
	++in->cur;
	goto yy2_156;
yy2_67:
	++in->cur;
	goto yy2_159;
yy2_68:
	yych = *in->cur;
	if (yych <= 0x2F) goto yy2_69;
	if (yych <= 0x58) goto yy2_70;
	if (yych <= 0x77) goto yy2_427;
	if (yych <= 0x78) goto yy2_73;
	goto yy2_427;
yy2_69:
	if (yych <= 0x2D) goto yy2_427;
	if (yych <= 0x2E) goto yy2_71;
	goto yy2_427;
yy2_70:
	if (yych <= 0x39) goto yy2_72;
	if (yych <= 0x57) goto yy2_427;
	goto yy2_73;
yy2_71:
	in->mar = in->cur;
	yyaccept = 3;
	yyt3 = yyt7;
	yyt4 = in->cur;
	++in->cur;
	goto yy2_161;
yy2_72:
	in->mar = in->cur;
	yyaccept = 3;
	yyt3 = yyt7;
	yyt4 = yyt8;
	++in->cur;
	goto yy2_163;
yy2_73:
	in->mar = in->cur;
	yyaccept = 3;
	++in->cur;
	goto yy2_167;
yy2_74:
	yych = *in->cur;
	if (yych <= 0x2F) goto yy2_75;
	if (yych <= 0x39) goto yy2_77;
	goto yy2_427;
yy2_75:
	if (yych <= 0x2D) goto yy2_427;
	if (yych <= 0x2E) goto yy2_76;
	goto yy2_427;
yy2_76:
	in->mar = in->cur;
	yyaccept = 3;
	yyt3 = yyt5;
	yyt4 = in->cur;
	++in->cur;
	goto yy2_161;
yy2_77:
	++in->cur;
	goto yy2_171;
yy2_78:
	yych = *in->cur;
	if (yych <= 0x3B) goto yy2_428;
	if (yych <= 0x3C) goto yy2_79;
	if (yych <= 0x3D) goto yy2_80;
	goto yy2_428;
yy2_79:
	++in->cur;
	goto yy2_175;
yy2_80:
	++in->cur;
	goto yy2_440;
yy2_81:
	yych = *in->cur;
	if (yych <= 0x3C) goto yy2_429;
	if (yych <= 0x3D) goto yy2_82;
	goto yy2_429;
yy2_82:
	++in->cur;
	goto yy2_441;
yy2_83:
	yych = *in->cur;
	if (yych <= 0x3C) goto yy2_430;
	if (yych <= 0x3D) goto yy2_84;
	if (yych <= 0x3E) goto yy2_85;
	goto yy2_430;
yy2_84:
	++in->cur;
	goto yy2_442;
yy2_85:
	++in->cur;
	goto yy2_177;
yy2_86:
	yych = *in->cur;
	if (yych <= 0x2F) goto yy2_431;
	if (yych <= 0x5E) goto yy2_87;
	if (yych <= 0x60) goto yy2_89;
	if (yych <= 0x7A) goto yy2_90;
	goto yy2_431;
yy2_87:
	if (yych <= 0x40) goto yy2_88;
	if (yych <= 0x5A) goto yy2_90;
	goto yy2_431;
yy2_88:
	if (yych <= 0x39) goto yy2_90;
	goto yy2_431;
yy2_89:
	if (yych <= 0x5F) goto yy2_90;
	goto yy2_431;
yy2_90:
	++in->cur;
	goto yy2_179;
yy2_91:
	yych = *in->cur;
	if (yych <= 0x60) goto yy2_92;
	if (yych <= 0x71) goto yy2_95;
	if (yych <= 0x72) goto yy2_96;
	if (yych <= 0x7A) goto yy2_95;
	goto yy2_431;
yy2_92:
	if (yych <= 0x40) goto yy2_93;
	if (yych <= 0x5E) goto yy2_94;
	if (yych <= 0x5F) goto yy2_95;
	goto yy2_431;
yy2_93:
	if (yych <= 0x2F) goto yy2_431;
	if (yych <= 0x39) goto yy2_95;
	goto yy2_431;
yy2_94:
	if (yych <= 0x5A) goto yy2_95;
	goto yy2_431;
yy2_95:
	++in->cur;
	goto yy2_179;
yy2_96:
	++in->cur;
	goto yy2_184;
yy2_97:
	yych = *in->cur;
	if (yych <= 0x60) goto yy2_98;
	if (yych <= 0x6E) goto yy2_101;
	if (yych <= 0x6F) goto yy2_104;
	if (yych <= 0x7A) goto yy2_102;
	goto yy2_431;
yy2_98:
	if (yych <= 0x40) goto yy2_99;
	if (yych <= 0x5E) goto yy2_100;
	if (yych <= 0x5F) goto yy2_102;
	goto yy2_431;
yy2_99:
	if (yych <= 0x2F) goto yy2_431;
	if (yych <= 0x39) goto yy2_102;
	goto yy2_431;
yy2_100:
	if (yych <= 0x5A) goto yy2_102;
	goto yy2_431;
yy2_101:
	if (yych <= 0x67) goto yy2_102;
	if (yych <= 0x68) goto yy2_103;
	goto yy2_102;
yy2_102:
	++in->cur;
	goto yy2_179;
yy2_103:
	++in->cur;
	goto yy2_190;
yy2_104:
	++in->cur;
	goto yy2_196;
yy2_105:
	yych = *in->cur;
	if (yych <= 0x60) goto yy2_106;
	if (yych <= 0x6B) goto yy2_109;
	if (yych <= 0x6C) goto yy2_110;
	if (yych <= 0x7A) goto yy2_109;
	goto yy2_431;
yy2_106:
	if (yych <= 0x40) goto yy2_107;
	if (yych <= 0x5E) goto yy2_108;
	if (yych <= 0x5F) goto yy2_109;
	goto yy2_431;
yy2_107:
	if (yych <= 0x2F) goto yy2_431;
	if (yych <= 0x39) goto yy2_109;
	goto yy2_431;
yy2_108:
	if (yych <= 0x5A) goto yy2_109;
	goto yy2_431;
yy2_109:
	++in->cur;
	goto yy2_179;
yy2_110:
	++in->cur;
	goto yy2_202;
yy2_111:
	yych = *in->cur;
	if (yych <= 0x60) goto yy2_112;
	if (yych <= 0x6E) goto yy2_115;
	if (yych <= 0x6F) goto yy2_116;
	if (yych <= 0x7A) goto yy2_115;
	goto yy2_431;
yy2_112:
	if (yych <= 0x40) goto yy2_113;
	if (yych <= 0x5E) goto yy2_114;
	if (yych <= 0x5F) goto yy2_115;
	goto yy2_431;
yy2_113:
	if (yych <= 0x2F) goto yy2_431;
	if (yych <= 0x39) goto yy2_115;
	goto yy2_431;
yy2_114:
	if (yych <= 0x5A) goto yy2_115;
	goto yy2_431;
yy2_115:
	++in->cur;
	goto yy2_179;
yy2_116:
	++in->cur;
	goto yy2_208;
yy2_117:
	yych = *in->cur;
	if (yych <= 0x60) goto yy2_118;
	if (yych <= 0x6D) goto yy2_121;
	if (yych <= 0x6E) goto yy2_124;
	if (yych <= 0x7A) goto yy2_122;
	goto yy2_431;
yy2_118:
	if (yych <= 0x40) goto yy2_119;
	if (yych <= 0x5E) goto yy2_120;
	if (yych <= 0x5F) goto yy2_122;
	goto yy2_431;
yy2_119:
	if (yych <= 0x2F) goto yy2_431;
	if (yych <= 0x39) goto yy2_122;
	goto yy2_431;
yy2_120:
	if (yych <= 0x5A) goto yy2_122;
	goto yy2_431;
yy2_121:
	if (yych <= 0x65) goto yy2_122;
	if (yych <= 0x66) goto yy2_123;
	goto yy2_122;
yy2_122:
	++in->cur;
	goto yy2_179;
yy2_123:
	++in->cur;
	goto yy2_214;
yy2_124:
	++in->cur;
	goto yy2_219;
yy2_125:
	yych = *in->cur;
	if (yych <= 0x60) goto yy2_126;
	if (yych <= 0x64) goto yy2_129;
	if (yych <= 0x65) goto yy2_130;
	if (yych <= 0x7A) goto yy2_129;
	goto yy2_431;
yy2_126:
	if (yych <= 0x40) goto yy2_127;
	if (yych <= 0x5E) goto yy2_128;
	if (yych <= 0x5F) goto yy2_129;
	goto yy2_431;
yy2_127:
	if (yych <= 0x2F) goto yy2_431;
	if (yych <= 0x39) goto yy2_129;
	goto yy2_431;
yy2_128:
	if (yych <= 0x5A) goto yy2_129;
	goto yy2_431;
yy2_129:
	++in->cur;
	goto yy2_179;
yy2_130:
	++in->cur;
	goto yy2_225;
yy2_131:
	yych = *in->cur;
	if (yych <= 0x60) goto yy2_132;
	if (yych <= 0x73) goto yy2_135;
	if (yych <= 0x74) goto yy2_136;
	if (yych <= 0x7A) goto yy2_135;
	goto yy2_431;
yy2_132:
	if (yych <= 0x40) goto yy2_133;
	if (yych <= 0x5E) goto yy2_134;
	if (yych <= 0x5F) goto yy2_135;
	goto yy2_431;
yy2_133:
	if (yych <= 0x2F) goto yy2_431;
	if (yych <= 0x39) goto yy2_135;
	goto yy2_431;
yy2_134:
	if (yych <= 0x5A) goto yy2_135;
	goto yy2_431;
yy2_135:
	++in->cur;
	goto yy2_179;
yy2_136:
	++in->cur;
	goto yy2_231;
yy2_137:
	yych = *in->cur;
	if (yych <= 0x60) goto yy2_138;
	if (yych <= 0x67) goto yy2_141;
	if (yych <= 0x68) goto yy2_142;
	if (yych <= 0x7A) goto yy2_141;
	goto yy2_431;
yy2_138:
	if (yych <= 0x40) goto yy2_139;
	if (yych <= 0x5E) goto yy2_140;
	if (yych <= 0x5F) goto yy2_141;
	goto yy2_431;
yy2_139:
	if (yych <= 0x2F) goto yy2_431;
	if (yych <= 0x39) goto yy2_141;
	goto yy2_431;
yy2_140:
	if (yych <= 0x5A) goto yy2_141;
	goto yy2_431;
yy2_141:
	++in->cur;
	goto yy2_179;
yy2_142:
	++in->cur;
	goto yy2_237;
yy2_143:
	yych = *in->cur;
	if (yych <= 0x7B) goto yy2_432;
	if (yych <= 0x7C) goto yy2_144;
	goto yy2_432;
yy2_144:
	++in->cur;
	goto yy2_445;
yy2_145:
	yych = *in->cur;
	if (yych <= 0x0C) goto yy2_146;
	if (yych <= 0x1F) goto yy2_147;
	if (yych <= 0x20) goto yy2_148;
	goto yy2_421;
yy2_146:
	if (yych <= 0x08) goto yy2_421;
	if (yych <= 0x0A) goto yy2_148;
	goto yy2_421;
yy2_147:
	if (yych <= 0x0D) goto yy2_148;
	goto yy2_421;
yy2_148:
	++in->cur;
	goto yy2_145;
yy2_149:
	yych = *in->cur;
	if (yych <= 0x21) goto yy2_150;
	if (yych <= 0x22) goto yy2_152;
	if (yych <= 0x5B) goto yy2_151;
	if (yych <= 0x5C) goto yy2_153;
	goto yy2_151;
yy2_150:
	if (yych <= 0x00) goto yy2_415;
	if (yych <= 0x09) goto yy2_151;
	if (yych <= 0x0A) goto yy2_415;
	goto yy2_151;
yy2_151:
	++in->cur;
	goto yy2_149;
yy2_152:
	++in->cur;
	goto yy2_433;
yy2_153:
	++in->cur;
	goto yy2_154;
yy2_154:
	yych = *in->cur;
	if (yych <= 0x00) goto yy2_415;
	if (yych <= 0x09) goto yy2_155;
	if (yych <= 0x0A) goto yy2_415;
	goto yy2_155;
yy2_155:
	++in->cur;
	goto yy2_243;
yy2_156:
	yych = *in->cur;
	if (yych <= 0x00) goto yy2_415;
	if (yych <= 0x29) goto yy2_157;
	if (yych <= 0x2A) goto yy2_158;
	goto yy2_157;
yy2_157:
	++in->cur;
	goto yy2_248;
yy2_158:
	++in->cur;
	goto yy2_251;
yy2_159:
	yych = *in->cur;
	if (yych <= 0x00) goto yy2_438;
	if (yych <= 0x09) goto yy2_160;
	if (yych <= 0x0A) goto yy2_438;
	goto yy2_160;
yy2_160:
	++in->cur;
	goto yy2_256;
yy2_161:
	yych = *in->cur;
	if (yych <= 0x2F) goto yy2_415;
	if (yych <= 0x39) goto yy2_162;
	goto yy2_415;
yy2_162:
	++in->cur;
	goto yy2_258;
yy2_163:
	yych = *in->cur;
	if (yych <= 0x2F) goto yy2_164;
	if (yych <= 0x39) goto yy2_166;
	goto yy2_415;
yy2_164:
	if (yych <= 0x2D) goto yy2_415;
	if (yych <= 0x2E) goto yy2_165;
	goto yy2_415;
yy2_165:
	yyt4 = in->cur;
	++in->cur;
	goto yy2_161;
yy2_166:
	++in->cur;
	goto yy2_163;
yy2_167:
	yych = *in->cur;
	if (yych <= 0x40) goto yy2_168;
	if (yych <= 0x60) goto yy2_169;
	if (yych <= 0x66) goto yy2_170;
	goto yy2_415;
yy2_168:
	if (yych <= 0x2F) goto yy2_415;
	if (yych <= 0x39) goto yy2_170;
	goto yy2_415;
yy2_169:
	if (yych <= 0x46) goto yy2_170;
	goto yy2_415;
yy2_170:
	++in->cur;
	goto yy2_261;
yy2_171:
	yych = *in->cur;
	if (yych <= 0x2F) goto yy2_172;
	if (yych <= 0x39) goto yy2_174;
	goto yy2_427;
yy2_172:
	if (yych <= 0x2D) goto yy2_427;
	if (yych <= 0x2E) goto yy2_173;
	goto yy2_427;
yy2_173:
	in->mar = in->cur;
	yyaccept = 3;
	yyt3 = yyt5;
	yyt4 = in->cur;
	++in->cur;
	goto yy2_161;
yy2_174:
	++in->cur;
	goto yy2_171;
yy2_175:
	yych = *in->cur;
	if (yych <= 0x3C) goto yy2_439;
	if (yych <= 0x3D) goto yy2_176;
	goto yy2_439;
yy2_176:
	++in->cur;
	goto yy2_447;
yy2_177:
	yych = *in->cur;
	if (yych <= 0x3C) goto yy2_443;
	if (yych <= 0x3D) goto yy2_178;
	goto yy2_443;
yy2_178:
	++in->cur;
	goto yy2_448;
yy2_179:
	yych = *in->cur;
	if (yych <= 0x2F) goto yy2_431;
	if (yych <= 0x5E) goto yy2_180;
	if (yych <= 0x60) goto yy2_182;
	if (yych <= 0x7A) goto yy2_183;
	goto yy2_431;
yy2_180:
	if (yych <= 0x40) goto yy2_181;
	if (yych <= 0x5A) goto yy2_183;
	goto yy2_431;
yy2_181:
	if (yych <= 0x39) goto yy2_183;
	goto yy2_431;
yy2_182:
	if (yych <= 0x5F) goto yy2_183;
	goto yy2_431;
yy2_183:
	++in->cur;
	goto yy2_179;
yy2_184:
	yych = *in->cur;
	if (yych <= 0x60) goto yy2_185;
	if (yych <= 0x64) goto yy2_188;
	if (yych <= 0x65) goto yy2_189;
	if (yych <= 0x7A) goto yy2_188;
	goto yy2_431;
yy2_185:
	if (yych <= 0x40) goto yy2_186;
	if (yych <= 0x5E) goto yy2_187;
	if (yych <= 0x5F) goto yy2_188;
	goto yy2_431;
yy2_186:
	if (yych <= 0x2F) goto yy2_431;
	if (yych <= 0x39) goto yy2_188;
	goto yy2_431;
yy2_187:
	if (yych <= 0x5A) goto yy2_188;
	goto yy2_431;
yy2_188:
	++in->cur;
	goto yy2_179;
yy2_189:
	++in->cur;
	goto yy2_265;
yy2_190:
	yych = *in->cur;
	if (yych <= 0x60) goto yy2_191;
	if (yych <= 0x61) goto yy2_195;
	if (yych <= 0x7A) goto yy2_194;
	goto yy2_431;
yy2_191:
	if (yych <= 0x40) goto yy2_192;
	if (yych <= 0x5E) goto yy2_193;
	if (yych <= 0x5F) goto yy2_194;
	goto yy2_431;
yy2_192:
	if (yych <= 0x2F) goto yy2_431;
	if (yych <= 0x39) goto yy2_194;
	goto yy2_431;
yy2_193:
	if (yych <= 0x5A) goto yy2_194;
	goto yy2_431;
yy2_194:
	++in->cur;
	goto yy2_179;
yy2_195:
	++in->cur;
	goto yy2_271;
yy2_196:
	yych = *in->cur;
	if (yych <= 0x60) goto yy2_197;
	if (yych <= 0x6D) goto yy2_200;
	if (yych <= 0x6E) goto yy2_201;
	if (yych <= 0x7A) goto yy2_200;
	goto yy2_431;
yy2_197:
	if (yych <= 0x40) goto yy2_198;
	if (yych <= 0x5E) goto yy2_199;
	if (yych <= 0x5F) goto yy2_200;
	goto yy2_431;
yy2_198:
	if (yych <= 0x2F) goto yy2_431;
	if (yych <= 0x39) goto yy2_200;
	goto yy2_431;
yy2_199:
	if (yych <= 0x5A) goto yy2_200;
	goto yy2_431;
yy2_200:
	++in->cur;
	goto yy2_179;
yy2_201:
	++in->cur;
	goto yy2_277;
yy2_202:
	yych = *in->cur;
	if (yych <= 0x60) goto yy2_203;
	if (yych <= 0x72) goto yy2_206;
	if (yych <= 0x73) goto yy2_207;
	if (yych <= 0x7A) goto yy2_206;
	goto yy2_431;
yy2_203:
	if (yych <= 0x40) goto yy2_204;
	if (yych <= 0x5E) goto yy2_205;
	if (yych <= 0x5F) goto yy2_206;
	goto yy2_431;
yy2_204:
	if (yych <= 0x2F) goto yy2_431;
	if (yych <= 0x39) goto yy2_206;
	goto yy2_431;
yy2_205:
	if (yych <= 0x5A) goto yy2_206;
	goto yy2_431;
yy2_206:
	++in->cur;
	goto yy2_179;
yy2_207:
	++in->cur;
	goto yy2_283;
yy2_208:
	yych = *in->cur;
	if (yych <= 0x60) goto yy2_209;
	if (yych <= 0x71) goto yy2_212;
	if (yych <= 0x72) goto yy2_213;
	if (yych <= 0x7A) goto yy2_212;
	goto yy2_431;
yy2_209:
	if (yych <= 0x40) goto yy2_210;
	if (yych <= 0x5E) goto yy2_211;
	if (yych <= 0x5F) goto yy2_212;
	goto yy2_431;
yy2_210:
	if (yych <= 0x2F) goto yy2_431;
	if (yych <= 0x39) goto yy2_212;
	goto yy2_431;
yy2_211:
	if (yych <= 0x5A) goto yy2_212;
	goto yy2_431;
yy2_212:
	++in->cur;
	goto yy2_179;
yy2_213:
	++in->cur;
	goto yy2_289;
yy2_214:
	yych = *in->cur;
	if (yych <= 0x2F) goto yy2_444;
	if (yych <= 0x5E) goto yy2_215;
	if (yych <= 0x60) goto yy2_217;
	if (yych <= 0x7A) goto yy2_218;
	goto yy2_444;
yy2_215:
	if (yych <= 0x40) goto yy2_216;
	if (yych <= 0x5A) goto yy2_218;
	goto yy2_444;
yy2_216:
	if (yych <= 0x39) goto yy2_218;
	goto yy2_444;
yy2_217:
	if (yych <= 0x5F) goto yy2_218;
	goto yy2_444;
yy2_218:
	++in->cur;
	goto yy2_179;
yy2_219:
	yych = *in->cur;
	if (yych <= 0x60) goto yy2_220;
	if (yych <= 0x73) goto yy2_223;
	if (yych <= 0x74) goto yy2_224;
	if (yych <= 0x7A) goto yy2_223;
	goto yy2_431;
yy2_220:
	if (yych <= 0x40) goto yy2_221;
	if (yych <= 0x5E) goto yy2_222;
	if (yych <= 0x5F) goto yy2_223;
	goto yy2_431;
yy2_221:
	if (yych <= 0x2F) goto yy2_431;
	if (yych <= 0x39) goto yy2_223;
	goto yy2_431;
yy2_222:
	if (yych <= 0x5A) goto yy2_223;
	goto yy2_431;
yy2_223:
	++in->cur;
	goto yy2_179;
yy2_224:
	++in->cur;
	goto yy2_294;
yy2_225:
	yych = *in->cur;
	if (yych <= 0x60) goto yy2_226;
	if (yych <= 0x73) goto yy2_229;
	if (yych <= 0x74) goto yy2_230;
	if (yych <= 0x7A) goto yy2_229;
	goto yy2_431;
yy2_226:
	if (yych <= 0x40) goto yy2_227;
	if (yych <= 0x5E) goto yy2_228;
	if (yych <= 0x5F) goto yy2_229;
	goto yy2_431;
yy2_227:
	if (yych <= 0x2F) goto yy2_431;
	if (yych <= 0x39) goto yy2_229;
	goto yy2_431;
yy2_228:
	if (yych <= 0x5A) goto yy2_229;
	goto yy2_431;
yy2_229:
	++in->cur;
	goto yy2_179;
yy2_230:
	++in->cur;
	goto yy2_299;
yy2_231:
	yych = *in->cur;
	if (yych <= 0x60) goto yy2_232;
	if (yych <= 0x71) goto yy2_235;
	if (yych <= 0x72) goto yy2_236;
	if (yych <= 0x7A) goto yy2_235;
	goto yy2_431;
yy2_232:
	if (yych <= 0x40) goto yy2_233;
	if (yych <= 0x5E) goto yy2_234;
	if (yych <= 0x5F) goto yy2_235;
	goto yy2_431;
yy2_233:
	if (yych <= 0x2F) goto yy2_431;
	if (yych <= 0x39) goto yy2_235;
	goto yy2_431;
yy2_234:
	if (yych <= 0x5A) goto yy2_235;
	goto yy2_431;
yy2_235:
	++in->cur;
	goto yy2_179;
yy2_236:
	++in->cur;
	goto yy2_305;
yy2_237:
	yych = *in->cur;
	if (yych <= 0x60) goto yy2_238;
	if (yych <= 0x68) goto yy2_241;
	if (yych <= 0x69) goto yy2_242;
	if (yych <= 0x7A) goto yy2_241;
	goto yy2_431;
yy2_238:
	if (yych <= 0x40) goto yy2_239;
	if (yych <= 0x5E) goto yy2_240;
	if (yych <= 0x5F) goto yy2_241;
	goto yy2_431;
yy2_239:
	if (yych <= 0x2F) goto yy2_431;
	if (yych <= 0x39) goto yy2_241;
	goto yy2_431;
yy2_240:
	if (yych <= 0x5A) goto yy2_241;
	goto yy2_431;
yy2_241:
	++in->cur;
	goto yy2_179;
yy2_242:
	++in->cur;
	goto yy2_311;
yy2_243:
	yych = *in->cur;
	if (yych <= 0x21) goto yy2_244;
	if (yych <= 0x22) goto yy2_246;
	if (yych <= 0x5B) goto yy2_245;
	if (yych <= 0x5C) goto yy2_247;
	goto yy2_245;
yy2_244:
	if (yych <= 0x00) goto yy2_415;
	if (yych <= 0x09) goto yy2_245;
	if (yych <= 0x0A) goto yy2_415;
	goto yy2_245;
yy2_245:
	++in->cur;
	goto yy2_149;
yy2_246:
	++in->cur;
	goto yy2_433;
yy2_247:
	++in->cur;
	goto yy2_154;
yy2_248:
	yych = *in->cur;
	if (yych <= 0x00) goto yy2_415;
	if (yych <= 0x29) goto yy2_249;
	if (yych <= 0x2A) goto yy2_250;
	goto yy2_249;
yy2_249:
	++in->cur;
	goto yy2_248;
yy2_250:
	++in->cur;
	goto yy2_251;
yy2_251:
	yych = *in->cur;
	if (yych <= 0x2A) goto yy2_252;
	if (yych <= 0x2E) goto yy2_253;
	if (yych <= 0x2F) goto yy2_255;
	goto yy2_253;
yy2_252:
	if (yych <= 0x00) goto yy2_415;
	if (yych <= 0x29) goto yy2_253;
	goto yy2_254;
yy2_253:
	++in->cur;
	goto yy2_317;
yy2_254:
	++in->cur;
	goto yy2_251;
yy2_255:
	++in->cur;
	goto yy2_451;
yy2_256:
	yych = *in->cur;
	if (yych <= 0x00) goto yy2_438;
	if (yych <= 0x09) goto yy2_257;
	if (yych <= 0x0A) goto yy2_438;
	goto yy2_257;
yy2_257:
	++in->cur;
	goto yy2_256;
yy2_258:
	yych = *in->cur;
	if (yych <= 0x2F) goto yy2_260;
	if (yych <= 0x39) goto yy2_259;
	goto yy2_260;
yy2_259:
	yyt1 = yyt3;
	yyt2 = yyt4;
	++in->cur;
	goto yy2_258;
yy2_260:
	yyt1 = yyt3;
	yyt2 = yyt4;
	goto yy2_446;
yy2_261:
	yych = *in->cur;
	if (yych <= 0x40) goto yy2_262;
	if (yych <= 0x60) goto yy2_263;
	if (yych <= 0x66) goto yy2_264;
	goto yy2_427;
yy2_262:
	if (yych <= 0x2F) goto yy2_427;
	if (yych <= 0x39) goto yy2_264;
	goto yy2_427;
yy2_263:
	if (yych <= 0x46) goto yy2_264;
	goto yy2_427;
yy2_264:
	++in->cur;
	goto yy2_261;
yy2_265:
	yych = *in->cur;
	if (yych <= 0x60) goto yy2_266;
	if (yych <= 0x61) goto yy2_270;
	if (yych <= 0x7A) goto yy2_269;
	goto yy2_431;
yy2_266:
	if (yych <= 0x40) goto yy2_267;
	if (yych <= 0x5E) goto yy2_268;
	if (yych <= 0x5F) goto yy2_269;
	goto yy2_431;
yy2_267:
	if (yych <= 0x2F) goto yy2_431;
	if (yych <= 0x39) goto yy2_269;
	goto yy2_431;
yy2_268:
	if (yych <= 0x5A) goto yy2_269;
	goto yy2_431;
yy2_269:
	++in->cur;
	goto yy2_179;
yy2_270:
	++in->cur;
	goto yy2_320;
yy2_271:
	yych = *in->cur;
	if (yych <= 0x60) goto yy2_272;
	if (yych <= 0x71) goto yy2_275;
	if (yych <= 0x72) goto yy2_276;
	if (yych <= 0x7A) goto yy2_275;
	goto yy2_431;
yy2_272:
	if (yych <= 0x40) goto yy2_273;
	if (yych <= 0x5E) goto yy2_274;
	if (yych <= 0x5F) goto yy2_275;
	goto yy2_431;
yy2_273:
	if (yych <= 0x2F) goto yy2_431;
	if (yych <= 0x39) goto yy2_275;
	goto yy2_431;
yy2_274:
	if (yych <= 0x5A) goto yy2_275;
	goto yy2_431;
yy2_275:
	++in->cur;
	goto yy2_179;
yy2_276:
	++in->cur;
	goto yy2_326;
yy2_277:
	yych = *in->cur;
	if (yych <= 0x60) goto yy2_278;
	if (yych <= 0x73) goto yy2_281;
	if (yych <= 0x74) goto yy2_282;
	if (yych <= 0x7A) goto yy2_281;
	goto yy2_431;
yy2_278:
	if (yych <= 0x40) goto yy2_279;
	if (yych <= 0x5E) goto yy2_280;
	if (yych <= 0x5F) goto yy2_281;
	goto yy2_431;
yy2_279:
	if (yych <= 0x2F) goto yy2_431;
	if (yych <= 0x39) goto yy2_281;
	goto yy2_431;
yy2_280:
	if (yych <= 0x5A) goto yy2_281;
	goto yy2_431;
yy2_281:
	++in->cur;
	goto yy2_179;
yy2_282:
	++in->cur;
	goto yy2_331;
yy2_283:
	yych = *in->cur;
	if (yych <= 0x60) goto yy2_284;
	if (yych <= 0x64) goto yy2_287;
	if (yych <= 0x65) goto yy2_288;
	if (yych <= 0x7A) goto yy2_287;
	goto yy2_431;
yy2_284:
	if (yych <= 0x40) goto yy2_285;
	if (yych <= 0x5E) goto yy2_286;
	if (yych <= 0x5F) goto yy2_287;
	goto yy2_431;
yy2_285:
	if (yych <= 0x2F) goto yy2_431;
	if (yych <= 0x39) goto yy2_287;
	goto yy2_431;
yy2_286:
	if (yych <= 0x5A) goto yy2_287;
	goto yy2_431;
yy2_287:
	++in->cur;
	goto yy2_179;
yy2_288:
	++in->cur;
	goto yy2_337;
yy2_289:
	yych = *in->cur;
	if (yych <= 0x2F) goto yy2_449;
	if (yych <= 0x5E) goto yy2_290;
	if (yych <= 0x60) goto yy2_292;
	if (yych <= 0x7A) goto yy2_293;
	goto yy2_449;
yy2_290:
	if (yych <= 0x40) goto yy2_291;
	if (yych <= 0x5A) goto yy2_293;
	goto yy2_449;
yy2_291:
	if (yych <= 0x39) goto yy2_293;
	goto yy2_449;
yy2_292:
	if (yych <= 0x5F) goto yy2_293;
	goto yy2_449;
yy2_293:
	++in->cur;
	goto yy2_179;
yy2_294:
	yych = *in->cur;
	if (yych <= 0x2F) goto yy2_450;
	if (yych <= 0x5E) goto yy2_295;
	if (yych <= 0x60) goto yy2_297;
	if (yych <= 0x7A) goto yy2_298;
	goto yy2_450;
yy2_295:
	if (yych <= 0x40) goto yy2_296;
	if (yych <= 0x5A) goto yy2_298;
	goto yy2_450;
yy2_296:
	if (yych <= 0x39) goto yy2_298;
	goto yy2_450;
yy2_297:
	if (yych <= 0x5F) goto yy2_298;
	goto yy2_450;
yy2_298:
	++in->cur;
	goto yy2_179;
yy2_299:
	yych = *in->cur;
	if (yych <= 0x60) goto yy2_300;
	if (yych <= 0x74) goto yy2_303;
	if (yych <= 0x75) goto yy2_304;
	if (yych <= 0x7A) goto yy2_303;
	goto yy2_431;
yy2_300:
	if (yych <= 0x40) goto yy2_301;
	if (yych <= 0x5E) goto yy2_302;
	if (yych <= 0x5F) goto yy2_303;
	goto yy2_431;
yy2_301:
	if (yych <= 0x2F) goto yy2_431;
	if (yych <= 0x39) goto yy2_303;
	goto yy2_431;
yy2_302:
	if (yych <= 0x5A) goto yy2_303;
	goto yy2_431;
yy2_303:
	++in->cur;
	goto yy2_179;
yy2_304:
	++in->cur;
	goto yy2_342;
yy2_305:
	yych = *in->cur;
	if (yych <= 0x60) goto yy2_306;
	if (yych <= 0x74) goto yy2_309;
	if (yych <= 0x75) goto yy2_310;
	if (yych <= 0x7A) goto yy2_309;
	goto yy2_431;
yy2_306:
	if (yych <= 0x40) goto yy2_307;
	if (yych <= 0x5E) goto yy2_308;
	if (yych <= 0x5F) goto yy2_309;
	goto yy2_431;
yy2_307:
	if (yych <= 0x2F) goto yy2_431;
	if (yych <= 0x39) goto yy2_309;
	goto yy2_431;
yy2_308:
	if (yych <= 0x5A) goto yy2_309;
	goto yy2_431;
yy2_309:
	++in->cur;
	goto yy2_179;
yy2_310:
	++in->cur;
	goto yy2_348;
yy2_311:
	yych = *in->cur;
	if (yych <= 0x60) goto yy2_312;
	if (yych <= 0x6B) goto yy2_315;
	if (yych <= 0x6C) goto yy2_316;
	if (yych <= 0x7A) goto yy2_315;
	goto yy2_431;
yy2_312:
	if (yych <= 0x40) goto yy2_313;
	if (yych <= 0x5E) goto yy2_314;
	if (yych <= 0x5F) goto yy2_315;
	goto yy2_431;
yy2_313:
	if (yych <= 0x2F) goto yy2_431;
	if (yych <= 0x39) goto yy2_315;
	goto yy2_431;
yy2_314:
	if (yych <= 0x5A) goto yy2_315;
	goto yy2_431;
yy2_315:
	++in->cur;
	goto yy2_179;
yy2_316:
	++in->cur;
	goto yy2_354;
yy2_317:
	yych = *in->cur;
	if (yych <= 0x00) goto yy2_415;
	if (yych <= 0x29) goto yy2_318;
	if (yych <= 0x2A) goto yy2_319;
	goto yy2_318;
yy2_318:
	++in->cur;
	goto yy2_248;
yy2_319:
	++in->cur;
	goto yy2_251;
yy2_320:
	yych = *in->cur;
	if (yych <= 0x60) goto yy2_321;
	if (yych <= 0x6A) goto yy2_324;
	if (yych <= 0x6B) goto yy2_325;
	if (yych <= 0x7A) goto yy2_324;
	goto yy2_431;
yy2_321:
	if (yych <= 0x40) goto yy2_322;
	if (yych <= 0x5E) goto yy2_323;
	if (yych <= 0x5F) goto yy2_324;
	goto yy2_431;
yy2_322:
	if (yych <= 0x2F) goto yy2_431;
	if (yych <= 0x39) goto yy2_324;
	goto yy2_431;
yy2_323:
	if (yych <= 0x5A) goto yy2_324;
	goto yy2_431;
yy2_324:
	++in->cur;
	goto yy2_179;
yy2_325:
	++in->cur;
	goto yy2_360;
yy2_326:
	yych = *in->cur;
	if (yych <= 0x2F) goto yy2_452;
	if (yych <= 0x5E) goto yy2_327;
	if (yych <= 0x60) goto yy2_329;
	if (yych <= 0x7A) goto yy2_330;
	goto yy2_452;
yy2_327:
	if (yych <= 0x40) goto yy2_328;
	if (yych <= 0x5A) goto yy2_330;
	goto yy2_452;
yy2_328:
	if (yych <= 0x39) goto yy2_330;
	goto yy2_452;
yy2_329:
	if (yych <= 0x5F) goto yy2_330;
	goto yy2_452;
yy2_330:
	++in->cur;
	goto yy2_179;
yy2_331:
	yych = *in->cur;
	if (yych <= 0x60) goto yy2_332;
	if (yych <= 0x68) goto yy2_335;
	if (yych <= 0x69) goto yy2_336;
	if (yych <= 0x7A) goto yy2_335;
	goto yy2_431;
yy2_332:
	if (yych <= 0x40) goto yy2_333;
	if (yych <= 0x5E) goto yy2_334;
	if (yych <= 0x5F) goto yy2_335;
	goto yy2_431;
yy2_333:
	if (yych <= 0x2F) goto yy2_431;
	if (yych <= 0x39) goto yy2_335;
	goto yy2_431;
yy2_334:
	if (yych <= 0x5A) goto yy2_335;
	goto yy2_431;
yy2_335:
	++in->cur;
	goto yy2_179;
yy2_336:
	++in->cur;
	goto yy2_365;
yy2_337:
	yych = *in->cur;
	if (yych <= 0x2F) goto yy2_453;
	if (yych <= 0x5E) goto yy2_338;
	if (yych <= 0x60) goto yy2_340;
	if (yych <= 0x7A) goto yy2_341;
	goto yy2_453;
yy2_338:
	if (yych <= 0x40) goto yy2_339;
	if (yych <= 0x5A) goto yy2_341;
	goto yy2_453;
yy2_339:
	if (yych <= 0x39) goto yy2_341;
	goto yy2_453;
yy2_340:
	if (yych <= 0x5F) goto yy2_341;
	goto yy2_453;
yy2_341:
	++in->cur;
	goto yy2_179;
yy2_342:
	yych = *in->cur;
	if (yych <= 0x60) goto yy2_343;
	if (yych <= 0x71) goto yy2_346;
	if (yych <= 0x72) goto yy2_347;
	if (yych <= 0x7A) goto yy2_346;
	goto yy2_431;
yy2_343:
	if (yych <= 0x40) goto yy2_344;
	if (yych <= 0x5E) goto yy2_345;
	if (yych <= 0x5F) goto yy2_346;
	goto yy2_431;
yy2_344:
	if (yych <= 0x2F) goto yy2_431;
	if (yych <= 0x39) goto yy2_346;
	goto yy2_431;
yy2_345:
	if (yych <= 0x5A) goto yy2_346;
	goto yy2_431;
yy2_346:
	++in->cur;
	goto yy2_179;
yy2_347:
	++in->cur;
	goto yy2_371;
yy2_348:
	yych = *in->cur;
	if (yych <= 0x60) goto yy2_349;
	if (yych <= 0x62) goto yy2_352;
	if (yych <= 0x63) goto yy2_353;
	if (yych <= 0x7A) goto yy2_352;
	goto yy2_431;
yy2_349:
	if (yych <= 0x40) goto yy2_350;
	if (yych <= 0x5E) goto yy2_351;
	if (yych <= 0x5F) goto yy2_352;
	goto yy2_431;
yy2_350:
	if (yych <= 0x2F) goto yy2_431;
	if (yych <= 0x39) goto yy2_352;
	goto yy2_431;
yy2_351:
	if (yych <= 0x5A) goto yy2_352;
	goto yy2_431;
yy2_352:
	++in->cur;
	goto yy2_179;
yy2_353:
	++in->cur;
	goto yy2_377;
yy2_354:
	yych = *in->cur;
	if (yych <= 0x60) goto yy2_355;
	if (yych <= 0x64) goto yy2_358;
	if (yych <= 0x65) goto yy2_359;
	if (yych <= 0x7A) goto yy2_358;
	goto yy2_431;
yy2_355:
	if (yych <= 0x40) goto yy2_356;
	if (yych <= 0x5E) goto yy2_357;
	if (yych <= 0x5F) goto yy2_358;
	goto yy2_431;
yy2_356:
	if (yych <= 0x2F) goto yy2_431;
	if (yych <= 0x39) goto yy2_358;
	goto yy2_431;
yy2_357:
	if (yych <= 0x5A) goto yy2_358;
	goto yy2_431;
yy2_358:
	++in->cur;
	goto yy2_179;
yy2_359:
	++in->cur;
	goto yy2_383;
yy2_360:
	yych = *in->cur;
	if (yych <= 0x2F) goto yy2_454;
	if (yych <= 0x5E) goto yy2_361;
	if (yych <= 0x60) goto yy2_363;
	if (yych <= 0x7A) goto yy2_364;
	goto yy2_454;
yy2_361:
	if (yych <= 0x40) goto yy2_362;
	if (yych <= 0x5A) goto yy2_364;
	goto yy2_454;
yy2_362:
	if (yych <= 0x39) goto yy2_364;
	goto yy2_454;
yy2_363:
	if (yych <= 0x5F) goto yy2_364;
	goto yy2_454;
yy2_364:
	++in->cur;
	goto yy2_179;
yy2_365:
	yych = *in->cur;
	if (yych <= 0x60) goto yy2_366;
	if (yych <= 0x6D) goto yy2_369;
	if (yych <= 0x6E) goto yy2_370;
	if (yych <= 0x7A) goto yy2_369;
	goto yy2_431;
yy2_366:
	if (yych <= 0x40) goto yy2_367;
	if (yych <= 0x5E) goto yy2_368;
	if (yych <= 0x5F) goto yy2_369;
	goto yy2_431;
yy2_367:
	if (yych <= 0x2F) goto yy2_431;
	if (yych <= 0x39) goto yy2_369;
	goto yy2_431;
yy2_368:
	if (yych <= 0x5A) goto yy2_369;
	goto yy2_431;
yy2_369:
	++in->cur;
	goto yy2_179;
yy2_370:
	++in->cur;
	goto yy2_388;
yy2_371:
	yych = *in->cur;
	if (yych <= 0x60) goto yy2_372;
	if (yych <= 0x6D) goto yy2_375;
	if (yych <= 0x6E) goto yy2_376;
	if (yych <= 0x7A) goto yy2_375;
	goto yy2_431;
yy2_372:
	if (yych <= 0x40) goto yy2_373;
	if (yych <= 0x5E) goto yy2_374;
	if (yych <= 0x5F) goto yy2_375;
	goto yy2_431;
yy2_373:
	if (yych <= 0x2F) goto yy2_431;
	if (yych <= 0x39) goto yy2_375;
	goto yy2_431;
yy2_374:
	if (yych <= 0x5A) goto yy2_375;
	goto yy2_431;
yy2_375:
	++in->cur;
	goto yy2_179;
yy2_376:
	++in->cur;
	goto yy2_394;
yy2_377:
	yych = *in->cur;
	if (yych <= 0x60) goto yy2_378;
	if (yych <= 0x73) goto yy2_381;
	if (yych <= 0x74) goto yy2_382;
	if (yych <= 0x7A) goto yy2_381;
	goto yy2_431;
yy2_378:
	if (yych <= 0x40) goto yy2_379;
	if (yych <= 0x5E) goto yy2_380;
	if (yych <= 0x5F) goto yy2_381;
	goto yy2_431;
yy2_379:
	if (yych <= 0x2F) goto yy2_431;
	if (yych <= 0x39) goto yy2_381;
	goto yy2_431;
yy2_380:
	if (yych <= 0x5A) goto yy2_381;
	goto yy2_431;
yy2_381:
	++in->cur;
	goto yy2_179;
yy2_382:
	++in->cur;
	goto yy2_399;
yy2_383:
	yych = *in->cur;
	if (yych <= 0x2F) goto yy2_455;
	if (yych <= 0x5E) goto yy2_384;
	if (yych <= 0x60) goto yy2_386;
	if (yych <= 0x7A) goto yy2_387;
	goto yy2_455;
yy2_384:
	if (yych <= 0x40) goto yy2_385;
	if (yych <= 0x5A) goto yy2_387;
	goto yy2_455;
yy2_385:
	if (yych <= 0x39) goto yy2_387;
	goto yy2_455;
yy2_386:
	if (yych <= 0x5F) goto yy2_387;
	goto yy2_455;
yy2_387:
	++in->cur;
	goto yy2_179;
yy2_388:
	yych = *in->cur;
	if (yych <= 0x60) goto yy2_389;
	if (yych <= 0x74) goto yy2_392;
	if (yych <= 0x75) goto yy2_393;
	if (yych <= 0x7A) goto yy2_392;
	goto yy2_431;
yy2_389:
	if (yych <= 0x40) goto yy2_390;
	if (yych <= 0x5E) goto yy2_391;
	if (yych <= 0x5F) goto yy2_392;
	goto yy2_431;
yy2_390:
	if (yych <= 0x2F) goto yy2_431;
	if (yych <= 0x39) goto yy2_392;
	goto yy2_431;
yy2_391:
	if (yych <= 0x5A) goto yy2_392;
	goto yy2_431;
yy2_392:
	++in->cur;
	goto yy2_179;
yy2_393:
	++in->cur;
	goto yy2_404;
yy2_394:
	yych = *in->cur;
	if (yych <= 0x2F) goto yy2_456;
	if (yych <= 0x5E) goto yy2_395;
	if (yych <= 0x60) goto yy2_397;
	if (yych <= 0x7A) goto yy2_398;
	goto yy2_456;
yy2_395:
	if (yych <= 0x40) goto yy2_396;
	if (yych <= 0x5A) goto yy2_398;
	goto yy2_456;
yy2_396:
	if (yych <= 0x39) goto yy2_398;
	goto yy2_456;
yy2_397:
	if (yych <= 0x5F) goto yy2_398;
	goto yy2_456;
yy2_398:
	++in->cur;
	goto yy2_179;
yy2_399:
	yych = *in->cur;
	if (yych <= 0x2F) goto yy2_457;
	if (yych <= 0x5E) goto yy2_400;
	if (yych <= 0x60) goto yy2_402;
	if (yych <= 0x7A) goto yy2_403;
	goto yy2_457;
yy2_400:
	if (yych <= 0x40) goto yy2_401;
	if (yych <= 0x5A) goto yy2_403;
	goto yy2_457;
yy2_401:
	if (yych <= 0x39) goto yy2_403;
	goto yy2_457;
yy2_402:
	if (yych <= 0x5F) goto yy2_403;
	goto yy2_457;
yy2_403:
	++in->cur;
	goto yy2_179;
yy2_404:
	yych = *in->cur;
	if (yych <= 0x60) goto yy2_405;
	if (yych <= 0x64) goto yy2_408;
	if (yych <= 0x65) goto yy2_409;
	if (yych <= 0x7A) goto yy2_408;
	goto yy2_431;
yy2_405:
	if (yych <= 0x40) goto yy2_406;
	if (yych <= 0x5E) goto yy2_407;
	if (yych <= 0x5F) goto yy2_408;
	goto yy2_431;
yy2_406:
	if (yych <= 0x2F) goto yy2_431;
	if (yych <= 0x39) goto yy2_408;
	goto yy2_431;
yy2_407:
	if (yych <= 0x5A) goto yy2_408;
	goto yy2_431;
yy2_408:
	++in->cur;
	goto yy2_179;
yy2_409:
	++in->cur;
	goto yy2_410;
yy2_410:
	yych = *in->cur;
	if (yych <= 0x2F) goto yy2_458;
	if (yych <= 0x5E) goto yy2_411;
	if (yych <= 0x60) goto yy2_413;
	if (yych <= 0x7A) goto yy2_414;
	goto yy2_458;
yy2_411:
	if (yych <= 0x40) goto yy2_412;
	if (yych <= 0x5A) goto yy2_414;
	goto yy2_458;
yy2_412:
	if (yych <= 0x39) goto yy2_414;
	goto yy2_458;
yy2_413:
	if (yych <= 0x5F) goto yy2_414;
	goto yy2_458;
yy2_414:
	++in->cur;
	goto yy2_179;
yy2_415:
	if (yyaccept == 1) goto yy2_416;
	if (yyaccept == 2) goto yy2_417;
	goto yy2_418;
yy2_416:
	in->cur = in->mar;
	goto yy2_420;
yy2_417:
	in->cur = in->mar;
	goto yy2_426;
yy2_418:
	in->cur = in->mar;
	goto yy2_427;
yy2_419:
	/*!code:re2c 1 13*/{ return 0; }
yy2_420:
	/*!code:re2c 40 14*/{ return 40; }
yy2_421:
	/*!code:re2c 2 14*/{ goto loop; }
yy2_422:
	/*!code:re2c 38 14*/{ return 38; }
yy2_423:
	/*!code:re2c 30 14*/{ return 30; }
yy2_424:
	/*!code:re2c 34 14*/{ return 34; }
yy2_425:
	/*!code:re2c 37 14*/{ return 37; }
yy2_426:
	/*!code:re2c 39 14*/{ return 39; }
yy2_427:
	/*!code:re2c 16 14*/{ return 16; }
yy2_428:
	/*!code:re2c 22 14*/{ return 22; }
yy2_429:
	/*!code:re2c 28 14*/{ return 28; }
yy2_430:
	/*!code:re2c 26 14*/{ return 26; }
yy2_431:
	/*!code:re2c 15 14*/{ return 15; }
yy2_432:
	/*!code:re2c 32 14*/{ return 32; }
yy2_433:
	/*!code:re2c 18 14*/{ return 18; }
yy2_434:
	/*!code:re2c 29 14*/{ return 29; }
yy2_435:
	/*!code:re2c 33 14*/{ return 33; }
yy2_436:
	/*!code:re2c 36 14*/{ return 36; }
yy2_437:
	/*!code:re2c 35 14*/{ return 35; }
yy2_438:
	/*!code:re2c 3 14*/{ goto loop; }
yy2_439:
	/*!code:re2c 20 14*/{ return 20; }
yy2_440:
	/*!code:re2c 21 14*/{ return 21; }
yy2_441:
	/*!code:re2c 27 14*/{ return 27; }
yy2_442:
	/*!code:re2c 25 14*/{ return 25; }
yy2_443:
	/*!code:re2c 24 14*/{ return 24; }
yy2_444:
	/*!code:re2c 5 13*/{ return 5; }
yy2_445:
	/*!code:re2c 31 14*/{ return 31; }
yy2_446:
	whole = yyt1;
	dot = yyt2;
	/*!code:re2c 17 14*/{ return 17; }
yy2_447:
	/*!code:re2c 19 14*/{ return 19; }
yy2_448:
	/*!code:re2c 23 14*/{ return 23; }
yy2_449:
	/*!code:re2c 8 13*/{ return 8; }
yy2_450:
	/*!code:re2c 10 14*/{ return 10; }
yy2_451:
	/*!code:re2c 4 14*/{ goto loop; }
yy2_452:
	/*!code:re2c 11 14*/{ return 11; }
yy2_453:
	/*!code:re2c 6 13*/{ return 6; }
yy2_454:
	/*!code:re2c 13 14*/{ return 13; }
yy2_455:
	/*!code:re2c 7 13*/{ return 7; }
yy2_456:
	/*!code:re2c 9 13*/{ return 9; }
yy2_457:
	/*!code:re2c 12 14*/{ return 12; }
yy2_458:
	/*!code:re2c 14 14*/{ return 14; }
yy2_none:;
}
/*!end:re2c*/
