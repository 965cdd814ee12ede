MACHINE Sample
VARIABLES
  x1, x2, x3, x4, x5, x6, x7, x8, x9, x10, x11, x12, x13, x14, x15, x16, x17, x18, x19, x20, x21, x22, x23, x24, x25, x26, x27, x28, x29, x30, x31, x32, x33, x34, x35, x36, x37, x38, x39, x40
INVARIANT
  x1 : 0..100 &
  x2 : 0..100 &
  x3 : 0..100 &
  x4 : 0..100 &
  x5 : 0..100 &
  x6 : 0..100 &
  x7 : 0..100 &
  x8 : 0..100 &
  x9 : 0..100 &
  x10 : 0..100 &
  x11 : 0..100 &
  x12 : 0..100 &
  x13 : 0..100 &
  x14 : 0..100 &
  x15 : 0..100 &
  x16 : 0..100 &
  x17 : 0..100 &
  x18 : 0..100 &
  x19 : 0..100 &
  x20 : 0..100 &
  x21 : 0..100 &
  x22 : 0..100 &
  x23 : 0..100 &
  x24 : 0..100 &
  x25 : 0..100 &
  x26 : 0..100 &
  x27 : 0..100 &
  x28 : 0..100 &
  x29 : 0..100 &
  x30 : 0..100 &
  x31 : 0..100 &
  x32 : 0..100 &
  x33 : 0..100 &
  x34 : 0..100 &
  x35 : 0..100 &
  x36 : 0..100 &
  x37 : 0..100 &
  x38 : 0..100 &
  x39 : 0..100 &
  x40 : 0..100
INITIALISATION
  x1, x2, x3, x4, x5, x6, x7, x8, x9, x10, x11, x12, x13, x14, x15, x16, x17, x18, x19, x20, x21, x22, x23, x24, x25, x26, x27, x28, x29, x30, x31, x32, x33, x34, x35, x36, x37, x38, x39, x40 := 0, 0, 0, 0, 0, 0, 0, 0, 0, 0, 0, 0, 0, 0, 0, 0, 0, 0, 0, 0, 0, 0, 0, 0, 0, 0, 0, 0, 0, 0, 0, 0, 0, 0, 0, 0, 0, 0, 0, 0
OPERATIONS
  add_1(k) = PRE k : 1..10 & x1 + k <= 100 THEN x1 := x1 + k END ;
  r <-- get_1 = r := x1 ;
  add_2(k) = PRE k : 1..10 & x2 + k <= 100 THEN x2 := x2 + k END ;
  r <-- get_2 = r := x2 ;
  add_3(k) = PRE k : 1..10 & x3 + k <= 100 THEN x3 := x3 + k END ;
  r <-- get_3 = r := x3 ;
  add_4(k) = PRE k : 1..10 & x4 + k <= 100 THEN x4 := x4 + k END ;
  r <-- get_4 = r := x4 ;
  add_5(k) = PRE k : 1..10 & x5 + k <= 100 THEN x5 := x5 + k END ;
  r <-- get_5 = r := x5 ;
  add_6(k) = PRE k : 1..10 & x6 + k <= 100 THEN x6 := x6 + k END ;
  r <-- get_6 = r := x6 ;
  add_7(k) = PRE k : 1..10 & x7 + k <= 100 THEN x7 := x7 + k END ;
  r <-- get_7 = r := x7 ;
  add_8(k) = PRE k : 1..10 & x8 + k <= 100 THEN x8 := x8 + k END ;
  r <-- get_8 = r := x8 ;
  add_9(k) = PRE k : 1..10 & x9 + k <= 100 THEN x9 := x9 + k END ;
  r <-- get_9 = r := x9 ;
  add_10(k) = PRE k : 1..10 & x10 + k <= 100 THEN x10 := x10 + k END ;
  r <-- get_10 = r := x10 ;
  add_11(k) = PRE k : 1..10 & x11 + k <= 100 THEN x11 := x11 + k END ;
  r <-- get_11 = r := x11 ;
  add_12(k) = PRE k : 1..10 & x12 + k <= 100 THEN x12 := x12 + k END ;
  r <-- get_12 = r := x12 ;
  add_13(k) = PRE k : 1..10 & x13 + k <= 100 THEN x13 := x13 + k END ;
  r <-- get_13 = r := x13 ;
  add_14(k) = PRE k : 1..10 & x14 + k <= 100 THEN x14 := x14 + k END ;
  r <-- get_14 = r := x14 ;
  add_15(k) = PRE k : 1..10 & x15 + k <= 100 THEN x15 := x15 + k END ;
  r <-- get_15 = r := x15 ;
  add_16(k) = PRE k : 1..10 & x16 + k <= 100 THEN x16 := x16 + k END ;
  r <-- get_16 = r := x16 ;
  add_17(k) = PRE k : 1..10 & x17 + k <= 100 THEN x17 := x17 + k END ;
  r <-- get_17 = r := x17 ;
  add_18(k) = PRE k : 1..10 & x18 + k <= 100 THEN x18 := x18 + k END ;
  r <-- get_18 = r := x18 ;
  add_19(k) = PRE k : 1..10 & x19 + k <= 100 THEN x19 := x19 + k END ;
  r <-- get_19 = r := x19 ;
  add_20(k) = PRE k : 1..10 & x20 + k <= 100 THEN x20 := x20 + k END ;
  r <-- get_20 = r := x20 ;
  add_21(k) = PRE k : 1..10 & x21 + k <= 100 THEN x21 := x21 + k END ;
  r <-- get_21 = r := x21 ;
  add_22(k) = PRE k : 1..10 & x22 + k <= 100 THEN x22 := x22 + k END ;
  r <-- get_22 = r := x22 ;
  add_23(k) = PRE k : 1..10 & x23 + k <= 100 THEN x23 := x23 + k END ;
  r <-- get_23 = r := x23 ;
  add_24(k) = PRE k : 1..10 & x24 + k <= 100 THEN x24 := x24 + k END ;
  r <-- get_24 = r := x24 ;
  add_25(k) = PRE k : 1..10 & x25 + k <= 100 THEN x25 := x25 + k END ;
  r <-- get_25 = r := x25 ;
  add_26(k) = PRE k : 1..10 & x26 + k <= 100 THEN x26 := x26 + k END ;
  r <-- get_26 = r := x26 ;
  add_27(k) = PRE k : 1..10 & x27 + k <= 100 THEN x27 := x27 + k END ;
  r <-- get_27 = r := x27 ;
  add_28(k) = PRE k : 1..10 & x28 + k <= 100 THEN x28 := x28 + k END ;
  r <-- get_28 = r := x28 ;
  add_29(k) = PRE k : 1..10 & x29 + k <= 100 THEN x29 := x29 + k END ;
  r <-- get_29 = r := x29 ;
  add_30(k) = PRE k : 1..10 & x30 + k <= 100 THEN x30 := x30 + k END ;
  r <-- get_30 = r := x30 ;
  add_31(k) = PRE k : 1..10 & x31 + k <= 100 THEN x31 := x31 + k END ;
  r <-- get_31 = r := x31 ;
  add_32(k) = PRE k : 1..10 & x32 + k <= 100 THEN x32 := x32 + k END ;
  r <-- get_32 = r := x32 ;
  add_33(k) = PRE k : 1..10 & x33 + k <= 100 THEN x33 := x33 + k END ;
  r <-- get_33 = r := x33 ;
  add_34(k) = PRE k : 1..10 & x34 + k <= 100 THEN x34 := x34 + k END ;
  r <-- get_34 = r := x34 ;
  add_35(k) = PRE k : 1..10 & x35 + k <= 100 THEN x35 := x35 + k END ;
  r <-- get_35 = r := x35 ;
  add_36(k) = PRE k : 1..10 & x36 + k <= 100 THEN x36 := x36 + k END ;
  r <-- get_36 = r := x36 ;
  add_37(k) = PRE k : 1..10 & x37 + k <= 100 THEN x37 := x37 + k END ;
  r <-- get_37 = r := x37 ;
  add_38(k) = PRE k : 1..10 & x38 + k <= 100 THEN x38 := x38 + k END ;
  r <-- get_38 = r := x38 ;
  add_39(k) = PRE k : 1..10 & x39 + k <= 100 THEN x39 := x39 + k END ;
  r <-- get_39 = r := x39 ;
  add_40(k) = PRE k : 1..10 & x40 + k <= 100 THEN x40 := x40 + k END ;
  r <-- get_40 = r := x40
END
