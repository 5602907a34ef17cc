
package p;
class B { }
