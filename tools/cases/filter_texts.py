"""Group 22, filters: words and signs. Texts by their answers, which are the papers'; the model has to agree."""
from model import COLUMNS, INT, STRING, BINARY

from .tables import Group, Table
from .values import BROKEN

NUMBERS = Table(a=(INT,), b=(INT,)), (0, 5)
NUMBER_TEXTS = {
    0: [
        # spaces, and none
        b"a<1", b"a <1", b"a< 1", b"a < 1", b"   a   <   1   ", b"( a<1 )", b" ( (a<1 ) ) ", b"(a<1)and(b=5)", b" not ( b<1)",
        # words
        b"a<1and a<2", b"a<1or b<1", b"not not a<1", b"not(not a<1)", b"not b<1and not(b>5)", b"not a startswith 1",
        # signs
        b"a<=0", b"a>=0", b"a>=-1", b"a>-1", b"a=0", b"a!=1", b"b!=0", b"b>=5 and b<=5",
        # decimals
        b"a<01", b"a=-0", b"a=000", b"a=-00", b"b=05", b"b=000000000000000000005", b"a>-000000000000000000005", b"a<9and b<9",
    ],
    1: [
        b"a<1 and b<1", b"not a<1", b"not(a<1)", b"not ( a<1)", b"not not not a<1", b"a startswith1", b"a startswith 1",
        b"a startswith-0", b"a<-1", b"a< -1", b"a<=-1", b"a!=0", b"a!= -0", b"a>0", b"a<0", b"b=-5", b"b=50", b"b!=05",
    ],
    9: [
        # nothing, and other spaces
        b"", b" ", b"\ta<1", b"a\t<1", b"a<\t1", b"a<1\t", b"a<1\n", b"\na<1", b"a<1\r\n", b"a<1\0", b"\xc2\xa0a<1", b"a<1\xa0",
        # signs that are none
        b"a< =0", b"a> =0", b"a! =1", b"a==0", b"a= =0", b"a<>1", b"a><1", b"a=<0", b"a=>0", b"a=!1", b"a<<1", b"a>>1", b"a!1",
        b"a!!=1", b"a<==0", b"a!==1", b"a>= =0", b"a~1", b"a:1", b"a\xe2\x89\xa41", b"a is 0", b"a in 0", b"a like 0",
        # words that are others
        b"nota<1", b"nota <1", b"notnot a<1", b"astartswith 1", b"astartswith1", b"a startswit 1", b"a startswiths 1",
        b"a starts with 1", b"a<1 anda<2", b"a<1anda<2", b"a<1orb<1", b"a<1 orb<1", b"a<1 an b<1", b"a<1 xor b<1",
        # upper case
        b"A<1", b"aB<1", b"a<1 AND b<1", b"a<1 Or b<1", b"NOT a<1", b"a StartsWith 1", b"a STARTSWITH 1",
        # names that no column has
        b"c<1", b"aa<1", b"ab<1", b"a1<1", b"a_b<1", b"and<1", b"or<1", b"not<1", b"startswith<1", b"startswith startswith 1",
        # no leaf
        b"a", b"a<", b"<1", b"1", b"a 1", b"a<b", b"1<a", b"-1<a", b"a<1<2", b"a startswith startswith 1", b"a startswith",
        b"a<and", b"(a)<1", b"a(<)1", b"a<(1)", b"(a<)1", b"a not<1", b"a<not 1", b"not", b"not not", b"a-1<0", b"a<a",
        # no filter
        b"and", b"or", b"a<1 and", b"a<1 or", b"and a<1", b"or a<1", b"a<1 and and b<1", b"a<1 or and b<1", b"a<1 and or b<1",
        b"a<1 b<1", b"a<1 not", b"a<1 not b<1", b"a<1 not and b<1", b"a<1,b<1", b"a<1;", b"a<1&&b<1", b"a<1||b<1", b"!a<1",
        # brackets
        b"(", b")", b"()", b"(a<1", b"a<1)", b")a<1(", b"(a<1))", b"((a<1)", b"()a<1", b"a<1()", b"(a<1)(b<1)", b"(a<1)b<1",
        b"a<1(b<1)", b"(a<1 and)b<1", b"a<1(and b<1)", b"(not)a<1", b"not()", b"(a<1 or (b<1)", b"[a<1]", b"{a<1}",
        # decimals that are none
        b"a<- 1", b"a<+1", b"a<+ 1", b"a<1.5", b"a<1.", b"a<.5", b"a<-", b"a<--1", b"a<-+1", b"a<1-", b"a<1-1", b"a<1e2",
        b"a<0x1", b"a<1_0", b"a<1 0", b"a<1,000", b"a<-a", b"a<1a", b"a<\xd9\xa1", b"a=1=1", b"a<1'", b"a<1''",
        # text for a number
        b"a='0'", b"a=''", b"a startswith '0'", b"a startswith ''", b"a<'", b'a<"1"',
    ],
}
LOTS = Table(s=(STRING,), y=(BINARY,)), (b"x1", b"\x80")
LOT_TEXTS = {
    0: [
        b"s='x1'", b"s = 'x1'", b" s='x1' ", b"(s='x1')", b"s startswith'x'", b"s startswith 'x'", b"s startswith''",
        b"not s startswith 'y'", b"s!=''", b"s>''", b"s>='x'", b"s='x1'and y!=''", b"s='x1'or y=''", b"not s=''", b"s<'x2'",
        # any bytes but a quote
        b"s!='X1'", b"s!=' x1'", b"s!='x1 '", b"s>'x\t1'", b"s>'x\n1'", b"s<'x1\0'", b"s!='not s=1 and ('", b"s!=')'", b"s!='?'",
        b"s<'\xc3\xa9'", b"s!='\xf0\x9f\x98\x80'", b"y='\x80'", b"y startswith '\x80'", b"y>'\x7f'", b"y<'\x80\0'", b"y!='\xff'",
    ],
    1: [
        b"s=''", b"s='X1'", b"s='x1 '", b"s=' x1'", b"s startswith 'X'", b"s startswith 'x1 '", b"s startswith 'x12'", b"s<''",
        b"not s startswith'x'", b"not s startswith''", b"y=''", b"y startswith '\x81'", b"y<'\x80'", b"s='x1'and y=''",
    ],
    9: [
        b"s=x1", b"s=x", b's="x1"', b"s='x1", b"s=x1'", b"s='x''1'", b"s=''''", b"s='''", b"s='", b"s'='x1'", b"'s'='x1'",
        b"'x1'=s", b"s='x1'y=''", b"s='x1''and'y=''", b"sstartswith'x'", b"s starts with 'x'", b"s='x1'or", b"s=`x1`",
        # a number for text
        b"s=1", b"s=0", b"s<-1", b"s startswith 1", b"y=1", b"y!=0", b"not y startswith 0",
        # no UTF-8 in a String
        *(b"s!='" + bs + b"'" for bs in BROKEN),
    ],
}
# Names that begin or end with a word of the grammar, or with another name.
NAMES = Table(nota=(INT,), an=(INT,), ands=(INT,), o=(INT,), ora=(INT,), startswithx=(INT,), astartswith=(INT,), a=(INT,))
NAME_TEXTS = {
    0: [b"nota<1", b"an<1and ands<1", b"o<1or ora<1", b"startswithx=0", b"astartswith!=1", b"not nota!=0", b"not not nota<1"],
    1: [b"not nota<1", b"nota!=0 or an<0", b"a startswith 1", b"astartswith startswith 1", b"a<1and ands<0", b"a<0 or ora<0"],
    9: [b"not a", b"notan<1", b"astartswith 1", b"a<1andands<1", b"startswith x=0", b"ora<1 ora<1", b"an d<1", b"a startswithx 1"],
}


def words_and_signs(cases):
    group = Group(cases, 22)
    for table, values, texts in ((*NUMBERS, NUMBER_TEXTS), (*LOTS, LOT_TEXTS), (NAMES, COLUMNS * [0], NAME_TEXTS)):
        for told, some in texts.items():
            for text in some:
                group.alike(table, text, values, told)
