class B { } #
