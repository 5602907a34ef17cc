
package java;
class A { }
