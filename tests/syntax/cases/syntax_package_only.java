// taken
package a.b.c;
