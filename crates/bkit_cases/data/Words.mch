MACHINE Words
VARIABLES n
INVARIANT n : INTEGER & 2 * n = n + n
INITIALISATION n := 0
OPERATIONS
  by_hyp = n := n + 0 ;
  by_true = n := n + 0 ;
  by_same = n := n + 0 ;
  by_eval = n := n + 0 ;
  by_false = n := n + 0 ;
  by_absurd = n := n + 0 ;
  by_and = n := n + 0 ;
  by_iff = n := n + 0 ;
  by_imp = n := n + 0 ;
  by_not = n := n + 0 ;
  by_left = n := n + 0 ;
  by_right = n := n + 0 ;
  by_or = n := n + 0 ;
  by_contra = n := n + 0 ;
  by_fix = n := n + 0 ;
  by_use = n := n + 0 ;
  by_split = n := n + 0 ;
  by_cases = n := n + 0 ;
  by_apply = n := n + 0 ;
  by_inst = n := n + 0 ;
  by_open = n := n + 0 ;
  by_cut = n := n + 0 ;
  by_case = n := n + 0 ;
  by_drop = n := n + 0 ;
  by_eq = n := n + 0 ;
  by_qe = n := n + 0 ;
  by_law = n := n + 0 ;
  by_wal = n := n + 0 ;
  by_type = n := n + 0 ;
  by_neg = n := n + 0 ;
  by_mem = n := n + 0 ;
  by_val = n := n + 0 ;
  by_ext = n := n + 0 ;
  by_sub = n := n + 0 ;
  by_ex = n := n + 0 ;
  by_pair = n := n + 0 ;
  by_elems = n := n + 0 ;
  by_interval = n := n + 0 ;
  by_induct = n := n + 0 ;
  by_poly = n := n + 0 ;
  by_lin = n := n + 0 ;
  not_by_same = n := n + 0
END
