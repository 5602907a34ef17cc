/* another one */

package q;

class B { }
