class B extends Nope {
    Never field;
}
