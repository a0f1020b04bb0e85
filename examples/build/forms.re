/* The forms of names and numbers, for the sources that include this one. */

/*!re2c
name = [A-Za-z_] [A-Za-z_0-9]*;
number = [0-9]+;
*/
