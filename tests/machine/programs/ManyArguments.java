/** As many arguments as a method may have. */
class ManyArguments {
    static long ints(int a0, int a1, int a2, int a3, int a4, int a5, int a6, int a7, int a8, int a9, int a10, int a11, int a12,
            int a13, int a14, int a15, int a16, int a17, int a18, int a19, int a20, int a21, int a22, int a23, int a24,
            int a25, int a26, int a27, int a28, int a29, int a30, int a31, int a32, int a33, int a34, int a35, int a36,
            int a37, int a38, int a39, int a40, int a41, int a42, int a43, int a44, int a45, int a46, int a47, int a48,
            int a49, int a50, int a51, int a52, int a53, int a54, int a55, int a56, int a57, int a58, int a59, int a60,
            int a61, int a62, int a63, int a64, int a65, int a66, int a67, int a68, int a69, int a70, int a71, int a72,
            int a73, int a74, int a75, int a76, int a77, int a78, int a79, int a80, int a81, int a82, int a83, int a84,
            int a85, int a86, int a87, int a88, int a89, int a90, int a91, int a92, int a93, int a94, int a95, int a96,
            int a97, int a98, int a99, int a100, int a101, int a102, int a103, int a104, int a105, int a106, int a107,
            int a108, int a109, int a110, int a111, int a112, int a113, int a114, int a115, int a116, int a117, int a118,
            int a119, int a120, int a121, int a122, int a123, int a124, int a125, int a126, int a127, int a128, int a129,
            int a130, int a131, int a132, int a133, int a134, int a135, int a136, int a137, int a138, int a139, int a140,
            int a141, int a142, int a143, int a144, int a145, int a146, int a147, int a148, int a149, int a150, int a151,
            int a152, int a153, int a154, int a155, int a156, int a157, int a158, int a159, int a160, int a161, int a162,
            int a163, int a164, int a165, int a166, int a167, int a168, int a169, int a170, int a171, int a172, int a173,
            int a174, int a175, int a176, int a177, int a178, int a179, int a180, int a181, int a182, int a183, int a184,
            int a185, int a186, int a187, int a188, int a189, int a190, int a191, int a192, int a193, int a194, int a195,
            int a196, int a197, int a198, int a199, int a200, int a201, int a202, int a203, int a204, int a205, int a206,
            int a207, int a208, int a209, int a210, int a211, int a212, int a213, int a214, int a215, int a216, int a217,
            int a218, int a219, int a220, int a221, int a222, int a223, int a224, int a225, int a226, int a227, int a228,
            int a229, int a230, int a231, int a232, int a233, int a234, int a235, int a236, int a237, int a238, int a239,
            int a240, int a241, int a242, int a243, int a244, int a245, int a246, int a247, int a248, int a249, int a250,
            int a251, int a252, int a253, int a254) {
        return a0 + 2L * a1 + 3L * a100 + 5L * a253 + 7L * a254;
    }

    long longs(long l0, long l1, long l2, long l3, long l4, long l5, long l6, long l7, long l8, long l9, long l10, long l11,
            long l12, long l13, long l14, long l15, long l16, long l17, long l18, long l19, long l20, long l21, long l22,
            long l23, long l24, long l25, long l26, long l27, long l28, long l29, long l30, long l31, long l32, long l33,
            long l34, long l35, long l36, long l37, long l38, long l39, long l40, long l41, long l42, long l43, long l44,
            long l45, long l46, long l47, long l48, long l49, long l50, long l51, long l52, long l53, long l54, long l55,
            long l56, long l57, long l58, long l59, long l60, long l61, long l62, long l63, long l64, long l65, long l66,
            long l67, long l68, long l69, long l70, long l71, long l72, long l73, long l74, long l75, long l76, long l77,
            long l78, long l79, long l80, long l81, long l82, long l83, long l84, long l85, long l86, long l87, long l88,
            long l89, long l90, long l91, long l92, long l93, long l94, long l95, long l96, long l97, long l98, long l99,
            long l100, long l101, long l102, long l103, long l104, long l105, long l106, long l107, long l108, long l109,
            long l110, long l111, long l112, long l113, long l114, long l115, long l116, long l117, long l118, long l119,
            long l120, long l121, long l122, long l123, long l124, long l125, long l126) {
        return l0 + 2 * l1 + 3 * l63 + 5 * l125 + 7 * l126;
    }

    public static void main(String[] args) {
        Out.line(ints(0, 1, 4, 9, 16, 25, 36, 49, 64, 81, 100, 121, 144, 169, 196, 225, 256, 289, 324, 361, 400, 441, 484, 529, 576,
            625, 676, 729, 784, 841, 900, 961, 1024, 1089, 1156, 1225, 1296, 1369, 1444, 1521, 1600, 1681, 1764, 1849,
            1936, 2025, 2116, 2209, 2304, 2401, 2500, 2601, 2704, 2809, 2916, 3025, 3136, 3249, 3364, 3481, 3600, 3721,
            3844, 3969, 4096, 4225, 4356, 4489, 4624, 4761, 4900, 5041, 5184, 5329, 5476, 5625, 5776, 5929, 6084, 6241,
            6400, 6561, 6724, 6889, 7056, 7225, 7396, 7569, 7744, 7921, 8100, 8281, 8464, 8649, 8836, 9025, 9216, 9409,
            9604, 9801, 10000, 10201, 10404, 10609, 10816, 11025, 11236, 11449, 11664, 11881, 12100, 12321, 12544, 12769,
            12996, 13225, 13456, 13689, 13924, 14161, 14400, 14641, 14884, 15129, 15376, 15625, 15876, 16129, 16384, 16641,
            16900, 17161, 17424, 17689, 17956, 18225, 18496, 18769, 19044, 19321, 19600, 19881, 20164, 20449, 20736, 21025,
            21316, 21609, 21904, 22201, 22500, 22801, 23104, 23409, 23716, 24025, 24336, 24649, 24964, 25281, 25600, 25921,
            26244, 26569, 26896, 27225, 27556, 27889, 28224, 28561, 28900, 29241, 29584, 29929, 30276, 30625, 30976, 31329,
            31684, 32041, 32400, 32761, 33124, 33489, 33856, 34225, 34596, 34969, 35344, 35721, 36100, 36481, 36864, 37249,
            37636, 38025, 38416, 38809, 39204, 39601, 40000, 40401, 40804, 41209, 41616, 42025, 42436, 42849, 43264, 43681,
            44100, 44521, 44944, 45369, 45796, 46225, 46656, 47089, 47524, 47961, 48400, 48841, 49284, 49729, 50176, 50625,
            51076, 51529, 51984, 52441, 52900, 53361, 53824, 54289, 54756, 55225, 55696, 56169, 56644, 57121, 57600, 58081,
            58564, 59049, 59536, 60025, 60516, 61009, 61504, 62001, 62500, 63001, 63504, 64009, 64516));
        Out.line(new ManyArguments().longs(0L, 1L, 8L, 27L, 64L, 125L, 216L, 343L, 512L, 729L, 1000L, 1331L, 1728L, 2197L, 2744L, 3375L, 4096L, 4913L,
            5832L, 6859L, 8000L, 9261L, 10648L, 12167L, 13824L, 15625L, 17576L, 19683L, 21952L, 24389L, 27000L, 29791L,
            32768L, 35937L, 39304L, 42875L, 46656L, 50653L, 54872L, 59319L, 64000L, 68921L, 74088L, 79507L, 85184L, 91125L,
            97336L, 103823L, 110592L, 117649L, 125000L, 132651L, 140608L, 148877L, 157464L, 166375L, 175616L, 185193L,
            195112L, 205379L, 216000L, 226981L, 238328L, 250047L, 262144L, 274625L, 287496L, 300763L, 314432L, 328509L,
            343000L, 357911L, 373248L, 389017L, 405224L, 421875L, 438976L, 456533L, 474552L, 493039L, 512000L, 531441L,
            551368L, 571787L, 592704L, 614125L, 636056L, 658503L, 681472L, 704969L, 729000L, 753571L, 778688L, 804357L,
            830584L, 857375L, 884736L, 912673L, 941192L, 970299L, 1000000L, 1030301L, 1061208L, 1092727L, 1124864L,
            1157625L, 1191016L, 1225043L, 1259712L, 1295029L, 1331000L, 1367631L, 1404928L, 1442897L, 1481544L, 1520875L,
            1560896L, 1601613L, 1643032L, 1685159L, 1728000L, 1771561L, 1815848L, 1860867L, 1906624L, 1953125L, 2000376L));
    }
}
