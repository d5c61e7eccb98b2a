mod; DD.MM.YYYY; HH:MM:SS; free
src; "planner"; "01.01.2000"; "00:00:00"
chs; "ISO8859-1"
ver; "1.4"
ifv; "1.4"
dve; "1.4"
fft; ""
tbl; REC_UMLAUF
atr; BASIS_VERSION; TAGESART_NR; UM_UID; ANF_ORT; ANF_ONR_TYP; END_ORT; END_ONR_TYP; FZG_TYP_NR
frm; num[19.0]; num[19.0]; num[19.0]; num[19.0]; num[19.0]; num[19.0]; num[19.0]; num[19.0]
rec; 1; 1; 1; 9; 2; 9; 2; 1
end; 1
tbl; REC_FRT
atr; BASIS_VERSION; FRT_FID; FRT_START; LI_NR; TAGESART_NR; FAHRTART_NR; FGR_NR; STR_LI_VAR; UM_UID
frm; num[10.0]; num[10.0]; num[10.0]; num[10.0]; num[10.0]; num[10.0]; num[10.0]; char[6]; num[10.0]
rec; 1; 1; 28800; 1; 1; 1; 1; "H"; 1
rec; 1; 2; 33000; 1; 1; 1; 1; "R"; 1
end; 2
tbl; X_UMLAUF
atr; UM_UID; HOF_NR; KOSTEN
frm; num[19.0]; num[19.0]; num[19.0]
rec; 1; 1; 2200
end; 1
tbl; X_UMLAUF_TEIL
atr; UM_UID; TEIL_NR; ART; FRT_FID; VON_TYP; VON_NR; BEGINN; NACH_TYP; NACH_NR; ENDE
frm; num[19.0]; num[19.0]; num[19.0]; num[19.0]; num[19.0]; num[19.0]; num[19.0]; num[19.0]; num[19.0]; num[19.0]
rec; 1; 1; 1; NULL; 2; 9; 28200; 1; 1; 28800
rec; 1; 2; 2; 1; 1; 1; 28800; 1; 2; 32400
rec; 1; 3; 4; NULL; 1; 2; 32400; 1; 2; 33000
rec; 1; 4; 2; 2; 1; 2; 33000; 1; 1; 36600
rec; 1; 5; 5; NULL; 1; 1; 36600; 2; 9; 37200
end; 5
tbl; X_DIENST
atr; DIENST_NR; GRUPPE_NR; BEGINN; ENDE; LENKZEIT; KOSTEN
frm; num[19.0]; num[19.0]; num[19.0]; num[19.0]; num[19.0]; num[19.0]
rec; 1; 1; 27600; 37500; 8400; 10400
end; 1
tbl; X_DIENST_STUECK
atr; DIENST_NR; LFD_NR; UM_UID; STUECK_NR; VON_TYP; VON_NR; BEGINN; NACH_TYP; NACH_NR; ENDE; LENKZEIT
frm; num[19.0]; num[19.0]; num[19.0]; num[19.0]; num[19.0]; num[19.0]; num[19.0]; num[19.0]; num[19.0]; num[19.0]; num[19.0]
rec; 1; 1; 1; 1; 2; 9; 28200; 1; 2; 32400; 4200
rec; 1; 2; 1; 2; 1; 2; 33000; 2; 9; 37200; 4200
end; 2
tbl; X_SCHRANKE
atr; ART; WERT; SCHRANKE
frm; num[19.0]; num[19.0]; num[19.0]
rec; 1; 1; 1
rec; 2; 2200; 2200
rec; 3; 1; 1
rec; 4; 10400; 10400
end; 4
eof; 7
