"""Names, texts and values that the sessions are drawn from: usual ones, odd ones, and ones that break a rule."""
from spelling import Spelled

# The moments of a session.
MOMENTS = [
    "2026-01-01T00:00:00Z", "2026-01-01T00:00:00.5Z", "2024-02-29T23:59:59.999999999Z", "0001-01-01T00:00:00Z",
    "9999-12-31T23:59:59.999999999Z", "1969-12-31T23:59:59Z", "2026-01-01T00:00:00.000000001Z",
    "2000-03-01T12:34:56.1Z", "1970-01-01T00:00:00.000Z",
]
# The server's names.
SERVER_NAMES = ["lost.example", "LOST.Example", "a", "x-1.Y", "1", "a" * 63 + "." + "b" * 63]
# Stamps at the ends of days, years and times.
STAMPS = [
    "2024-02-29T23:59:59.123456789Z", "2000-02-29T00:00:00Z", "0001-01-01T00:00:00Z", "0001-12-31T23:59:59Z",
    "9999-12-31T23:59:59.999999999Z", "0004-02-29T00:00:00Z", "1600-02-29T00:00:00Z", "1969-12-31T23:59:59.999999999Z",
    "1970-01-01T00:00:00Z",
]
# Texts that are no stamps.
NO_STAMPS = [
    "2026-02-29T00:00:00Z", "2100-02-29T00:00:00Z", "2026-01-01T00:00:60Z", "2026-01-01T24:00:00Z",
    "2026-01-01T00:60:00Z", "2026-00-01T00:00:00Z", "2026-13-01T00:00:00Z", "2026-01-00T00:00:00Z",
    "2026-01-32T00:00:00Z", "2026-04-31T00:00:00Z", "0000-01-01T00:00:00Z", "2026-01-01T00:00:00+00:00",
    "2026-01-01T00:00:00z", "2026-01-01t00:00:00Z", "2026-01-01 00:00:00Z", "2026-01-01T00:00:00",
    "2026-01-01T00:00:00.Z", "2026-01-01T00:00:00.1234567890Z", "2026-01-01T00:00:00,5Z", "+2026-01-01T00:00:00Z",
    "-026-01-01T00:00:00Z", "10000-01-01T00:00:00Z", "2026-1-01T00:00:00Z", " 2026-01-01T00:00:00Z",
    "2026-01-01T00:00:00Z ", "2026-01-01T00:00Z", "20260101T000000Z", "2026-01-01T00:00:00.5",
    "2026-01-01T00:00:00.5+00:00", "2026-01-01T00:00:00ZZ", "\uff12026-01-01T00:00:00Z", "2026-01-01T00:00:00.1 Z",
    "2026-01-01T00:00:00.-1Z", "2026-01-01T0a:00:00Z", "2026-01-01T00:00:00Z[UTC]", "2026-06-30T23:59:60Z", "", "Z",
    "2026-01-01T00:00:00.000000000000Z", "1900-02-29T00:00:00Z", "2026-01-01T-1:00:00Z", "2026-01-01T00:00:+1Z",
    "2026-01-01T00:00:00\x00Z",
]
# Sources.
SOURCES = ["map.example", "MAP.Example", "b.example"]
# Sources at the bounds of their rule.
ODD_SOURCES = ["1", "a-b", "a" * 63 + "." + "a" * 63 + "." + "a" * 63 + "." + "b" * 61, "a" * 63 + ".x", "xn--a.9", "A"]
# Texts that are no sources.
NO_SOURCES = [
    "", "a..b", ".a", "a.", "-a.x", "a-.x", "x.-a", "x.a-", "a_b", "a b", "é", "a" * 64,
    "a" * 63 + "." + "a" * 63 + "." + "a" * 63 + "." + "b" * 62, ".", "-", "a.b.", "a\n", "\u212a", "K\u212a", "a/b",
    "\uff41",
]
# Front letters of sourceIds.
IDS = ["A", "B", "C", "D", "E", "a"]
# sourceIds and keys at the bounds of their rule.
ODD_IDS = [
    "é", "E\u0301", "x y", " ", "z" * 128, "é" * 64, "\u0080", "\"q\\", "\U0001f600", "\u2028", "a/b", "\ud7ff",
    "\ufffd", "\uffff", "A ",
]
# Texts that are no sourceIds and no keys.
NO_IDS = [
    "", "z" * 129, "é" * 64 + "a", "a\x7f", "\x1f", "a\x00", "\t", "\n", "é" * 65,
    "\U0001f600" * 32 + "a",
]
# Tokens: some differ in case, by a byte more, or in Unicode's form alone.
TOKENS = ["t1", "t2", "t", "T1", "t10", "t1 ", "é", "e\u0301", "É", "room 1", "K", "\u212a"]
# Texts that are no JSON: halves of a character by its digits, which are no UTF-8.
HALVES = [Spelled(r'"\ud800"'), Spelled(r'"t1\udc00"'), Spelled(r'"\ud83dt1"')]
# Front parts of keys.
KEYS = ["A-1", "A-2", "B-1", "k", "K", "A-1 ", "u", "v", "w", "x1", "x2", "x3"]
# Services, without the prefix.
SERVICES = [
    "sos", "sos.police", "sos.police.x", "sos.fire", "sos.police-x", "a", "sos.policex", "sos.police.x.y", "b.c",
    "sos-x",
]
# Services at the bounds of their rule.
ODD_SERVICES = ["1", "a-b", "a--b", "0.0", "a.b.c.d.e.f.g.h", "a" * 63, "a" * 63 + "." + "a" * 63]
# Texts that are no service URNs.
NO_SERVICES = [
    "urn:service:", "sos", "urn:service", "urn:service:so_s", "urn:service:sos.-x", "urn:service:sos-",
    "urn:service:-", "urn:service:" + "a" * 64, "urn:service:a.a.a.a.a.a.a.a.a", "urn:service:.sos",
    "urn:service:sos.", "urn:service:sos..police", "urn:service:s\u00f3s", "urn:Service :sos", "urn:servicé:sos",
    " urn:service:sos", "urn:service:sos ", "", "urn:service:\u017fos", "urn:\u017fervice:sos",
    "urn:service:a." + "b" * 64, "urn-service:sos", "urn:service.sos", "urn:service:sos\n", "urn:service:sos\x00",
    "urn:service:.", "urn:service:a:b",
]
# URIs.
URIS = [
    "sip:a@x", "sips:a@x", "tel:112", "SIP:b", "http://x/?y#z", "a:b", "x+y-z.1:~", "Tel:1", "h323:!", "xmpp:\"<>\\",
    "sip::", "A1:z",
]
# Texts that are no URIs, and URIs at the bounds of their rule.
ODD_URIS = [
    "", "sip", "sip:", ":x", "1a:b", "+a:b", "sip:a b", "sip:é", "si_p:x", "sip:\x7f", "sip :x", " sip:x", "sip:x ",
    "sip:x\t", "é:x", "-:x", ".a:b", "sip:" + "x" * 2045, "s/p:x", "sip:\x00", "z:" + "x" * 2046, "y" * 2000 + ":1",
    "q" * 2047 + ":", "w" * 2046 + ":1",
]
# Service numbers.
NUMBERS = ["112", "911", "0", "*#", "1" * 64, "*31#"]
# Texts that are no service numbers.
NO_NUMBERS = ["", "1" * 65, "112a", "+112", " 112", "1 2", "\uff11", "-1", "1.2", "\u0661"]
# Civic elements that are drawn often.
USUAL_ELEMENTS = ["country", "A1", "A3", "HNO", "PC", "FLR", "A6", "PRM", "PRD", "ADDCODE", "LOC"]
# Names that are no civic elements.
UNKNOWN_ELEMENTS = [
    "X", "a1", "Country", "A7", "", "A1 ", "é", "hno", "ZZ", "\uffff", "\U0001f600", "COUNTRY", "A0", "Z" * 512,
]
# Values of civic elements that are drawn often.
USUAL_VALUES = ["NJ", "nj", " NJ ", "x", "X", "1", "2"]
# Values of civic elements whose comparison texts are easy to get wrong.
VALUES = [
    "NJ", "nj", " NJ ", "N J", "N  J", "N\tJ", "N\x0b \x0cJ", "x", "X", "X\r\n", "\x1c", "x\x1c", "", " ", "\u00a0",
    "é", "É", "1", "2", "NJ\u0085", "\u2003NJ", "x\x08", "\x00", "N\x1fJ", "K", "\u212a", "k",
]
# Values at the bound of their length.
LONG_VALUES = ["v" * 512, "é" * 256, "V" * 511 + " "]
# Values past the bound of their length.
TOO_LONG_VALUES = ["v" * 513, "é" * 256 + "v", " " * 513]
# Languages of display names.
LANGUAGES = ["en", "", "é", "x" * 1024]
# Texts of display names.
DISPLAY_TEXTS = ["A", "", "\"\\\n", "\x1f\x00\x08\x0c", "\U0001f600"]
# Profiles that are not recognised.
PROFILES = [
    "x", "", "Civic", "geodetic-2D", "GEODETIC-2D", "geodetic-2d ", "X-Token", "x-token ", "x-tokens", "token", "x_token",
]
# Reference systems: the one that is known, others, and values that are no texts.
SYSTEMS = [
    "urn:ogc:def:crs:EPSG::4326", "urn:ogc:def:crs:EPSG::4326", "urn:ogc:def:crs:EPSG::4326",
    "urn:ogc:def:crs:EPSG::4979", "URN:OGC:DEF:CRS:EPSG::4326", "", 4326, None, ["urn:ogc:def:crs:EPSG::4326"],
    "urn:ogc:def:crs:EPSG::4326 ", True,
]
# Lists that are no positions, or are positions out of range.
POSITIONS = [
    [], [0], [0, 0, 0], [0, None], [None, 0], [True, 0], ["0", 0], [0, Spelled("0.0")], [Spelled("-0"), 0],
    [0, Spelled("-0")], [Spelled("1e1"), 0], [Spelled("1.0"), 0], [0, Spelled("9223372036854775808")],
    [Spelled("-9223372036854775808"), 0], [[0, 0]], [900000001, 0], [0, 1800000001], [-900000001, 0], [0, -1800000001],
    [900000000, 1800000000],
]
# Values of every kind.
JUNK = [
    None, True, False, 0, 1, -1, Spelled("1.5"), Spelled("-0"), Spelled("1e2"), Spelled("0.0"), "", "x", "true", [],
    {}, [None], [[]], [{}], {"a": 1}, ["x"], [1], {"": ""}, Spelled("9223372036854775808"),
    Spelled("123456789012345678901234567890"), Spelled("1E-400"), [0, 0], "0",
]
# Pieces that make a line no JSON.
NO_JSON = [
    "1e999", "-1e400", "01", "+1", ".5", "1.", "NaN", "Infinity", "-Infinity", "-", "nul", "True", "'x'", r'"\x"',
    r'"\ud800"', r'"\udc00"', r'"\ud800\u0041"', r'"\ud83d\ud83d"', r'"\u12"', "\"\t\"", "\"\x01\"",
    "[1,]", '{"a":1,}', "[,]", '{"a"}', "{1:2}", "[1 2]", "1e", "1e+", "--1", "0x10", r'"\ud83d\n"', "[", "]", "{",
    "}", '"', '""""', "/**/1", "\u00a01", "\ufeff1", "\x0c1", "1_0", r'"\u00ZZ"', r'"\uD83D', "\"\\", "1.e1",
    "1.5.5", "1e5.5", "-01", "tru", "truee", "nullnull", "0b1", "-a", r'"\u+123"', r'"\u 123"', r'"\U0041"',
    "1e1000000000000000000000",
]
# Pieces of JSON that are easy to get wrong.
ODD_JSON = [
    "1E5", "1e-999", "0e999", "0e99999999999999999999", "-0", "-0.0", "-0e5", "1e-99999999999999999999", r'"\u0000"',
    r'"\ud83d\ude00"', r'"\/\b\f\n\r\t\"\\"', "[]", " [ ] ", "{ }", "[\r\t ]", "1" * 300,
    "0." + "0" * 400 + "1", "-9223372036854775808", "-9223372036854775809", "18446744073709551615",
    "18446744073709551616", "1e+5", "\"\x7f\"", "\"\u0080\"", "\"\uffff\"", "1e308", "1e00005", "0.1E+00",
    r'"\uABCD\uabcd"', "null", "9999999999999999999999999", r'"\ud800\udc00"', r'"\uDBFF\uDFFF"',
]
