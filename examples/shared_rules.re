/* The rules of numbers, for the blocks of a file that includes this one. */

/*!rules:re2c
re2c:yyfill:enable = 0;
re2c:define:YYCURSOR = "(*at)";
digit = [0-9];

"0" [0-7]*            { return OCTAL; }
[1-9] digit*          { return DECIMAL; }
'0x' [0-9A-Fa-f]+     { return HEXADECIMAL; }
digit+ "." digit+     { return FRACTION; }
*/
