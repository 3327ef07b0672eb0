(* The machines of the proof, and what a proof rests on, as Frama-C's own tree has it after the preprocessor. With
   TREE=FILE it writes what it finds into the file, a line each: the kind, the function or the name, and the rest. *)
open Cil_types

(* With an unsigned plain char WP sees that char and unsigned char share memory. base62.c computes with no plain char,
   so it is the same on both machines. *)
let () =
  List.iter (fun (name, machine) -> File.new_machdep name { machine with char_is_unsigned = true })
    [ ("base62_64", Machdeps.gcc_x86_64); ("base62_32", Machdeps.gcc_x86_32) ]

let rows = ref []
let report kind name what = rows := String.concat "\t" [ kind; name; what ] :: !rows
let file_of (place : location) = Filename.basename (Filepath.Normalized.to_pretty_string (fst place).Filepath.pos_path)
let is_library (place : location) =
  String.starts_with ~prefix:"FRAMAC_SHARE/" (Filepath.Normalized.to_pretty_string (fst place).Filepath.pos_path)
let at_place place what = Format.asprintf "%a: %s" Cil_printer.pp_location place what
(* What is not on the list counts in base62.c and base62.h alone. *)
let allow is_listed place what = if not is_listed then report "unlisted" "" (at_place place ("not on the list: " ^ what))

(* -------------------- The list: the C that base62.c and base62.h may be -------------------- *)

(* Each function is a table, from a kind of node to whether, or on which condition, it is allowed. What has no line of its
   own is rejected. These are for the tree before types, `listed` below for the one with types. *)
module Listed = struct
  open Cabs

  let enumerators = ref []
  let rec is_constant e = match e.expr_node with
    | CONSTANT _ -> true | VARIABLE name -> List.mem name !enumerators
    | PAREN a | CAST (_, SINGLE_INIT a) -> is_constant a | _ -> false
  (* The parts of an expression that C evaluates one after the other: each may be an effect. *)
  let rec alone e = e :: match e.expr_node with
    | PAREN a | CAST (_, SINGLE_INIT a) | UNARY (NOT, a) -> alone a
    | BINARY ((EQ | NE), a, b) when is_constant b -> alone a
    | BINARY ((AND | OR), a, b) -> alone a @ alone b
    | QUESTION (a, b, c) -> alone a @ alone b @ alone c
    | BINARY (ASSIGN, { expr_node = VARIABLE _; _ }, ({ expr_node = CALL _; _ } as call)) -> [ call ]
    | _ -> []
  let expression may_have_effect e = match e.expr_node with
    | NOTHING | VARIABLE _ | PAREN _ | QUESTION _ | INDEX _ | MEMBEROF _ | MEMBEROFPTR _ | CAST _ | EXPR_SIZEOF _ | TYPE_SIZEOF _
    | UNARY ((NOT | MINUS | MEMOF | ADDROF), _)
    | BINARY ((ADD | SUB | MUL | DIV | MOD | AND | OR | BAND | BOR | XOR | SHL | SHR | EQ | NE | LT | GT | LE | GE), _, _) -> true
    | CONSTANT (CONST_INT _ | CONST_CHAR _ | CONST_STRING _) -> true
    | BINARY ((ASSIGN | ADD_ASSIGN | SUB_ASSIGN | MUL_ASSIGN | DIV_ASSIGN | SHR_ASSIGN), _, _) | UNARY ((POSINCR | POSDECR), _) ->
      may_have_effect
    | CALL ({ expr_node = VARIABLE _; _ }, _, []) -> true (* Those that write are below. *)
    | _ -> false
  let statement s = match s.stmt_node with
    | NOP _ | COMPUTATION _ | RETURN _ | BLOCK _ | IF _ | WHILE _ | FOR (_, FC_DECL _, _, _, _, _) | DEFINITION (DECDEF _)
    | CODE_ANNOT _ | CODE_SPEC _ -> true
    | _ -> false
  let is_variable = function PROTO _ | PTR (_, PROTO _) -> false | _ -> true
  let definition d = match d with
    | FUNDEF _ | TYPEDEF _ | GLOBANNOT _ -> true
    | DECDEF (_, (_, all), _) -> not (List.exists (fun ((_, decl, _, _), init) -> is_variable decl && init = NO_INIT) all)
    | _ -> false

  (* Calls that may have no effect. *)
  let nested_calls = ref []

  class walk = object
    inherit Cabsvisit.nopCabsVisitor
    val mutable effects = []
    val mutable here = Cil_datatype.Location.unknown

    method! vexpr e =
      here <- e.expr_loc;
      let may_have_effect = List.memq e effects in
      allow (expression may_have_effect e) here "an expression";
      (match e.expr_node with
        | CALL ({ expr_node = VARIABLE f; _ }, _, _) when not may_have_effect -> nested_calls := (f, here) :: !nested_calls
        | _ -> ());
      Cil.DoChildren

    method! vattr _ = Cil.SkipChildren

    method! vname _ _ (name, _, _, _) = report "declares" name ""; Cil.DoChildren

    method! vtypespec t =
      (match t with
        | Tenum (tag, Some all, _) ->
          let names = List.map (fun (name, _, _) -> name) all in
          enumerators := names @ !enumerators;
          List.iter (fun name -> report "declares" name "") (tag :: names)
        | Tstruct (tag, Some _, _) -> report "declares" tag ""
        | _ -> ());
      Cil.DoChildren

    method! vstmt s =
      here <- Cabshelper.get_statementloc s;
      if not (statement s) then report "rejected" "" (at_place here "not on the list: a statement");
      (match s.stmt_node with
        | COMPUTATION (e, _) | RETURN (e, _) | IF (e, _, _, _) | WHILE (_, e, _, _) -> effects <- alone e
        | FOR (_, _, condition, step, _, _) -> effects <- alone condition @ alone step
        | _ -> ());
      Cil.DoChildren

    method! vdef d =
      here <- Cabshelper.get_definitionloc d;
      allow (definition d) here "a definition, or a variable that is not initialized";
      let add = function _, SINGLE_INIT e -> effects <- alone e @ effects | _ -> () in
      (match d with DECDEF (_, (_, all), _) -> List.iter add all | _ -> ());
      Cil.DoChildren
  end
end

(* -------------------- Definitions: each ends -------------------- *)

let is_parameter p t = match t.term_node with TLval (TVar v, TNoOffset) -> v.lv_id = p.lv_id | _ -> false

(* By how much an argument differs from its parameter. *)
let step p a = match a.term_node with
  | _ when is_parameter p a -> Some 0
  | TBinOp (op, v, { term_node = TConst (Integer (n, _)); _ }) when is_parameter p v && Integer.equal n Integer.one ->
    (match op with PlusA -> Some 1 | MinusA -> Some (-1) | _ -> None)
  | _ -> None

(* The calls of a definition within its own body, each with its arguments. Frama-C rejects any use of one that does not stand
   before it. *)
class body_of info = object (self)
  inherit Visitor.frama_c_inplace
  val mutable calls = []
  method calls = calls
  method private call f args = if f.l_var_info.lv_id = info.l_var_info.lv_id then calls <- args :: calls
  method! vterm_node n =
    (match n with
      | Tapp (f, _, args) -> self#call f args
      | TLval (TVar v, _) when v.lv_id = info.l_var_info.lv_id -> self#call info []
      | _ -> ());
    Cil.DoChildren
  method! vpredicate_node n = (match n with Papp (f, _, args) -> self#call f args | _ -> ()); Cil.DoChildren
end

(* A conditional term. All calls stand where its condition bounds a counter from above, or where it does not so from
   below: by a constant, or by a parameter that is handed on as it is. Each call moves the counter by one, that way. *)
let ends info calls_of = match info.l_body with
  | LBterm { term_node = Tif (c, a, b); _ } ->
    let goes counter way bound =
      let some test args = List.exists2 (fun p arg -> test p (step p arg)) info.l_profile args in
      let is_fixed args = match bound.term_node with
        | TConst _ -> true | _ -> some (fun p by -> is_parameter p bound && by = Some 0) args in
      List.for_all (fun args -> List.length args = List.length info.l_profile && is_fixed args
        && some (fun p by -> is_parameter p counter && p.lv_type = Linteger && by = Some way) args) in
    let rec first t = match t.term_node with TBinOp (LAnd, t, _) -> first t | _ -> t in
    calls_of c = [] && (match c.term_node, (first c).term_node with
      | TBinOp (Le, counter, bound), _ -> calls_of a = [] && goes counter (-1) bound (calls_of b)
      | _, TBinOp (Lt, counter, bound) -> calls_of b = [] && goes counter 1 bound (calls_of a)
      | _ -> false)
  | _ -> false

let endless_definition = "a recursive definition, and nothing shows that it ends"

(* What is wrong with a definition. *)
let definition info =
  let calls_in visit part =
    let body = new body_of info in
    ignore (visit (body :> Visitor.frama_c_visitor) part);
    body#calls in
  let calls_of = calls_in Visitor.visitFramacTerm in
  let is_endless calls = calls <> [] && not (ends info calls_of) in
  match info.l_body with
  | LBinductive _ | LBreads _ | LBnone -> [ "a definition without a body" ]
  | LBterm t when is_endless (calls_of t) -> [ endless_definition ]
  | LBpred p when is_endless (calls_in Visitor.visitFramacPredicate p) -> [ endless_definition ]
  | LBterm _ | LBpred _ -> []

(* -------------------- Axioms: a query of SMT-LIB for each -------------------- *)

exception Other_form

let rec bits n = if Integer.is_zero n then 1 else 1 + bits (Integer.shift_right n Integer.one)

(* A term over numbers of 192 bits with a sign, and how many bits its value takes at most, with the sign. *)
let rec term t =
  let of_two f a b width =
    let (a, m), (b, n) = (term a, term b) in
    let width = width m n in
    if width > 192 then raise Other_form else (Printf.sprintf "(%s %s %s)" f a b, width) in
  match t.term_node with
  | TConst (Integer (n, _)) when Integer.ge n Integer.zero && bits n < 192 ->
    (Printf.sprintf "(_ bv%s 192)" (Integer.to_string n), bits n + 1)
  | TLval (TVar v, TNoOffset) when v.lv_type = Linteger -> (v.lv_name, 130)
  | TLogic_coerce (Linteger, a) -> term a
  | TUnOp (Neg, a) -> of_two "bvsub" (Cil.lzero ()) a (fun _ n -> n + 1)
  | TCastE (to_, a) -> (match Cil.unrollType to_ with
    | TInt (kind, _) when not (Cil.isSigned kind || kind = IBool) ->
      let size = Cil.bitsSizeOfInt kind in
      (Printf.sprintf "((_ zero_extend %d) ((_ extract %d 0) %s))" (192 - size) (size - 1) (fst (term a)), size + 1)
    | _ -> raise Other_form)
  | TBinOp (PlusA, a, b) -> of_two "bvadd" a b (fun m n -> max m n + 1)
  | TBinOp (MinusA, a, b) -> of_two "bvsub" a b (fun m n -> max m n + 1)
  | TBinOp (Mult, a, b) -> of_two "bvmul" a b (+)
  | TBinOp ((Div | Mod), _, { term_node = TConst (Integer (n, _)); _ }) when Integer.is_zero n -> raise Other_form
  | TBinOp (Div, a, ({ term_node = TConst _; _ } as b)) -> of_two "bvsdiv" a b (fun m _ -> m + 1)
  | TBinOp (Mod, a, ({ term_node = TConst _; _ } as b)) -> of_two "bvsrem" a b max
  | TBinOp (BAnd, a, b) -> of_two "bvand" a b max
  | TBinOp (BOr, a, b) -> of_two "bvor" a b max
  | TBinOp (Shiftrt, a, ({ term_node = TConst _; _ } as b)) -> of_two "bvashr" a b (fun m _ -> m)
  | TBinOp (Shiftlt, a, ({ term_node = TConst (Integer (n, _)); _ } as b)) ->
    of_two "bvshl" a b (fun m _ -> m + Integer.to_int_exn n)
  | _ -> raise Other_form

let rec formula p = match p.pred_content with
  | Prel (relation, a, b) ->
    let name = match relation with
      | Rlt -> "bvslt" | Rle -> "bvsle" | Rgt -> "bvsgt" | Rge -> "bvsge" | Req -> "=" | Rneq -> "distinct" in
    Printf.sprintf "(%s %s %s)" name (fst (term a)) (fst (term b))
  | Pand (p, q) -> Printf.sprintf "(and %s %s)" (formula p) (formula q)
  | Por (p, q) -> Printf.sprintf "(or %s %s)" (formula p) (formula q)
  | _ -> raise Other_form

(* The variables that a condition bounds on both sides by numbers of at most 128 bits. *)
let bounded p v =
  let rec parts p = match p.pred_content with Pand (p, q) -> parts p @ parts q | _ -> [ p.pred_content ] in
  let is_small t = match Logic_utils.constFoldTermToInt t with
    | Some n -> Integer.le (Integer.abs n) (Integer.two_power_of_int 128) | None -> false in
  List.exists (function Prel (Rle, n, t) -> is_small n && is_parameter v t | _ -> false) (parts p)
  && List.exists (function Prel (Rlt, t, n) -> is_small n && is_parameter v t | _ -> false) (parts p)

(* Nothing contradicts the axiom, if the answer is unsat. *)
let query p = match p.pred_content with
  | Pforall (variables, { pred_content = Pimplies (condition, claim); _ })
    when List.for_all (bounded condition) variables ->
    let declared v = Printf.sprintf "(declare-const %s (_ BitVec 192)) " v.lv_name in
    Printf.sprintf "%s(assert %s) (assert (not %s)) (check-sat)"
      (String.concat "" (List.map declared variables)) (formula condition) (formula claim)
  | _ -> raise Other_form

(* -------------------- Contracts -------------------- *)

(* The contracts of a function as they stand in the files, before they are one: each with its file. *)
let contracts = Hashtbl.create 200
let in_header = Hashtbl.create 50

let read_files () =
  let seen name spec (place : Cabs.cabsloc) =
    let file = file_of place in
    if spec <> None then Hashtbl.add contracts name file;
    if file = "base62.h" then Hashtbl.replace in_header name () in
  let definition (_, d) = match d with
    | Cabs.FUNDEF (spec, (_, (name, _, _, _)), _, place, _) -> seen name spec place
    | Cabs.TYPEDEF ((_, names), place) -> List.iter (fun (name, _, _, _) -> seen name None place) names
    | Cabs.DECDEF (spec, (_, names), place) -> List.iter (fun ((name, _, _, _), _) -> seen name spec place) names
    | _ -> () in
  let definition (ghost, d) =
    let place = Cabshelper.get_definitionloc d in
    if not (is_library place) then ignore (Cabsvisit.visitCabsDefinition (new Listed.walk) d);
    definition (ghost, d) in
  List.iter (fun (_, definitions) -> List.iter definition definitions) (Ast.UntypedFiles.get ())

(* In copy_bytes, whose parameters are restrict. *)
let all_apart = "\\separated(to + (0 .. length - 1), from + (0 .. length - 1))"
let is_apart p = Format.asprintf "%a" Cil_printer.pp_predicate p.ip_content.tp_statement = all_apart

(* What is wrong with the contract of a function. *)
let contract kf =
  let f = Kernel_function.get_vi kf in
  let spec = Annotations.funspec ~populate:false kf in
  let files = Hashtbl.find_all contracts f.vorig_name in
  let is_public = Hashtbl.mem in_header f.vorig_name in
  (match Cil.find_default_behavior spec with
    | None | Some { b_assigns = WritesAny; _ } -> [ "no contract, or none with assigns" ]
    | Some b -> (if f.vghost && b.b_assigns <> Writes [] then [ "a ghost function that assigns" ] else [])
      @ if List.exists (fun v -> Cil.typeHasAttribute "restrict" v.vtype) (Kernel_function.get_formals kf)
           && not (f.vname = "copy_bytes" && List.exists is_apart b.b_requires) then [ "restrict, without " ^ all_apart ] else [])
  @ (if f.vname = "main" then [ "WP takes it that no function is called before main" ] else [])
  @ (if List.length files > 1 then [ "two contracts" ] else [])
  @ (if is_public && files <> [ "base62.acsl" ] then [ "its contract does not stand in base62.acsl" ] else [])
  @ if spec.spec_terminates <> None || spec.spec_variant <> None || List.exists (fun b ->
      b.b_extended <> [] || b.b_allocation <> FreeAllocAny
      || List.exists (fun (kind, _) -> kind <> Normal) b.b_post_cond) spec.spec_behavior
  then [ "a clause of another kind" ] else []

(* -------------------- The walk -------------------- *)

(* The types of the fields of a struct. *)
let fields typ = match Cil.unrollType typ with
  | TComp (c, _) -> List.map (fun f -> f.ftype) (Option.value c.cfields ~default:[]) | _ -> []
let pointed typ = Cil.typeOf_pointed (Cil.unrollType typ)

(* WP 25 has a false axiom for an array that is read whole, as a part of a struct too. *)
let rec has_array typ = Cil.isArrayType typ || List.exists has_array (fields typ)

(* It would let a call write, although no parameter says so. *)
let hides_pointer typ =
  Cil.isPointerType typ && Cil.isPointerType (pointed typ) || List.exists Cil.isPointerType (fields typ)

let is_of_kind kind typ = match Cil.unrollType typ with TInt (k, _) -> k = kind | _ -> false
let is_through_a_number to_ from = Cil.isPointerType to_ <> Cil.isPointerType from && not (Cil.isVoidType to_)
let plain_char = "a plain char, which compilers may have with a sign"
let through_a_number = "a pointer from a number, or a number from a pointer"

(* Bytes have one size and no alignment. *)
let rec is_of_bytes typ = match Cil.unrollType typ with
  | TInt ((IChar | IUChar), _) -> true
  | TArray (t, Some _, _) -> is_of_bytes t
  | TComp _ -> List.for_all is_of_bytes (fields typ)
  | _ -> false
let is_byte typ = Cil.isArithmeticType typ && is_of_bytes typ
let name_of typ = match Cil.unrollType typ with TComp (c, _) -> c.corig_name | _ -> ""
let is_constant_type typ = Cil.typeHasQualifier "const" typ
let is_pointer e = Cil.isPointerType (Cil.typeOf e)
let is_same a b = Cil_datatype.Typ.equal (Cil.typeDeepDropAllAttributes a) (Cil.typeDeepDropAllAttributes b)

(* The size and the sign of an enum are up to the compiler, and so is what an operator or a cast makes of it. Of each variable
   that Frama-C adds: whether what is assigned to it is one. *)
let is_assigned_enum = Hashtbl.create 10
let is_enum_type typ = match Cil.unrollType typ with TEnum _ -> true | _ -> false
let rec is_enum e = match e.enode with
  | CastE (TInt _, a) -> is_enum a
  | Const (CEnum _) -> true
  | Lval (Var v, NoOffset) when List.mem true (Hashtbl.find_all is_assigned_enum v.vid) -> true
  | _ -> is_enum_type (Cil.typeOf e)
let is_mixed e = match e.enode with
  | Lval (Var v, NoOffset) -> List.mem false (Hashtbl.find_all is_assigned_enum v.vid) | _ -> false

(* What a pointer that is not const points to may be a caller's memory, which is not set: reading it is undefined. A struct
   that is none of base62.h, and to which no pointer is cast, is a local of base62.c, and set. *)
let is_set p = match Cil.unrollType (pointed (Cil.typeOf p)) with
  | TComp (c, _) as typ when not (Hashtbl.mem in_header c.corig_name || is_of_bytes typ) -> true
  | typ -> is_constant_type typ
let rec is_of_local e = match e.enode with
  | StartOf (Var _, _) | AddrOf (Var _, _) -> true
  | StartOf (Mem p, _) | AddrOf (Mem p, _) -> is_set p
  | BinOp (PlusPI, p, _, _) | CastE (_, p) -> is_of_local p
  | _ -> false
(* WP counts a struct in fields, without padding, and lets a pointer go from one to the next. *)
let rec is_beside = function
  | Field (f, rest) -> f != List.nth (Option.get f.fcomp.cfields) (List.length (Option.get f.fcomp.cfields) - 1) || is_beside rest
  | Index (_, rest) -> is_beside rest
  | NoOffset -> false
let rec is_scalar_field = function
  | Field (f, NoOffset) -> Cil.isArithmeticOrPointerType f.ftype
  | Field (_, rest) | Index (_, rest) -> is_scalar_field rest
  | NoOffset -> false
(* Of copy_bytes the argument that is a whole array. *)
let whole_array f arguments = match f.vname, arguments with
  | "copy_bytes", [ { enode = StartOf lval; _ } as a; _; length ] ->
    (match Cil.unrollType (Cil.typeOfLval lval), Cil.constFoldToInt length with
      | TArray (_, Some size, _), Some n when Cil.constFoldToInt size = Some n -> [ a ] | _ -> [])
  | _ -> []

(* The list goes on, for the tree with types. Whole are the arrays that copy_bytes copies whole, and compared the operands of
   == and != and what is assigned to a variable that Frama-C adds. *)
let listed_cast to_ a =
  let from = Cil.typeOf a in
  match Cil.unrollType to_, Cil.unrollType from with
  | TPtr (t, _), TPtr (f, _) ->
    (is_byte t && is_byte f || is_same t f || List.mem (name_of f, name_of t) [ ("base62_alphabet", "Tables") ])
    && (if is_constant_type f then is_constant_type t  (* It stays read only. *)
        else not (is_constant_type t) || is_of_local a)  (* Reading starts here. *)
  | TVoid _, _ -> true
  | TEnum _, _ -> is_enum a && not (is_mixed a)
  | TInt _, TInt _ -> (match a.enode with Const (CEnum _) -> true | _ -> not (is_enum a))
  | _ -> false
let listed whole compared e = match e.enode with
  | Const (CInt64 _ | CChr _ | CEnum _) -> true
  | Lval (Var _, _) -> true
  | Lval (Mem p, _) -> is_set p
  | SizeOf t -> is_of_bytes t
  | SizeOfE a -> is_of_bytes (Cil.typeOf a)
  | BinOp (PlusPI, _, _, _) -> true
  | BinOp (_, a, b, _) when is_pointer a || is_pointer b -> false
  | BinOp ((Eq | Ne), _, _, _) | UnOp (LNot, _, _) -> true
  | BinOp (Mod, _, b, typ) when Cil.isSignedInteger typ ->
    (match Cil.constFoldToInt b with Some n -> Integer.gt n Integer.zero | None -> false)
  | BinOp (_, a, b, _) -> not (is_enum a || is_enum b)
  | UnOp (Neg, a, _) -> not (is_enum a)
  | CastE (to_, a) when is_of_kind IInt to_ || is_of_kind IUInt to_ -> is_enum a && List.memq e compared || listed_cast to_ a
  | CastE (to_, a) -> listed_cast to_ a
  | AddrOf (_, offset) -> not (is_beside offset || is_scalar_field offset)
  | StartOf (_, offset) -> not (is_beside offset) || List.memq e whole
  | _ -> false

(* Those that Frama-C itself gives, and what base62.h says of buffers. *)
let known_attributes = [ "const"; "restrict"; "ghost"; "access"; "arraylen"; "fc_ghost_formal"; "fc_local_static"; "fc_stdlib" ]

let read_whole = "a struct with an array is read whole, and WP 25 has a false axiom for it"
let not_tried = "WP tries no goal that is named no_wp"
let calls = Hashtbl.create 1000

class walk = object (self)
  inherit Visitor.frama_c_inplace
  val mutable whole = []
  val mutable compared = []
  method private name = match self#current_kf with Some kf -> Kernel_function.get_name kf | None -> ""
  method private reject place what = report "rejected" self#name (at_place place what)
  method private reject_if wrong place what = if wrong then self#reject place what

  method! vglob_aux g =
    let place = Cil_datatype.Global.loc g in
    (match g with
      | GFun ({ svar = f; _ }, _) | GFunDecl (_, f, _) when Ast.is_def_or_last_decl g ->
        let kf = Globals.Functions.get f in
        report (if Kernel_function.is_definition kf then "defined" else "declared") f.vname "";
        if Hashtbl.mem in_header f.vorig_name && f.vstorage <> Static then report "public" f.vname "";
        List.iter (fun what -> report "rejected" f.vname (at_place place what)) (contract kf)
      | GEnumTag (e, _) ->
        let is_int item = match Cil.constFoldToInt item.eival with Some n -> Cil.fitsInInt IInt n | None -> false in
        allow (List.for_all is_int e.eitems) place "an enumerator that is no int"
      | GVar (v, _, _) ->
        allow (v.vghost || is_constant_type v.vtype) place "a static variable that is not const";
        if v.vstorage = Static && is_constant_type v.vtype && file_of place = "base62.c" then report "constant" v.vname ""
      | _ -> ());
    Cil.DoChildren

  (* WP counts a struct in fields, and compilers in bytes, of which some are none of a field. *)
  method! vtype t =
    let holds_numbers t = List.for_all Cil.isArithmeticType (if fields t = [] then [ t ] else fields t) in
    let is_wrong = match t with TArray (t, size, _) -> size = None || not (holds_numbers t) | _ -> false in
    self#reject_if is_wrong (Cil.CurrentLoc.get ()) "an array without a length, or of structs that hold more than numbers";
    allow (not (hides_pointer t)) (Cil.CurrentLoc.get ()) "a pointer in a struct, or to a pointer"; Cil.DoChildren

  method! vvdec v =
    allow (v.vformal || not (Cil.typeHasAttribute "restrict" v.vtype)) (Cil.CurrentLoc.get ()) "restrict"; Cil.DoChildren

  method! vattr a =
    let name = Cil.attributeName a in
    self#reject_if (not (List.mem name known_attributes)) (Cil.CurrentLoc.get ()) ("an attribute, " ^ name);
    Cil.DoChildren

  method! vannotation a =
    let place = Cil_datatype.Global_annotation.loc a in
    (match a with
      | Daxiomatic _ -> ()
      | Dlemma (name, _, _, { tp_kind = Admit; tp_statement }, _, _) ->
        (try report "axiom" name (query tp_statement)
         with Other_form -> self#reject place ("an axiom of another form: " ^ name))
      | Dlemma (name, _, _, _, _, _) -> self#reject_if (name = "no_wp") place not_tried; report "lemma" name ""
      | Dfun_or_pred (info, _) ->
        List.iter (fun what -> self#reject place (what ^ ": " ^ info.l_var_info.lv_name)) (definition info)
      | _ -> self#reject place "an annotation of another kind");
    Cil.DoChildren

  method! vcode_annot a =
    let place = Option.value (Cil_datatype.Code_annotation.loc a) ~default:Cil_datatype.Location.unknown in
    (match a.annot_content with
      | AAssert ([], p) | AInvariant ([], true, p) -> self#reject_if (p.tp_kind = Admit) place "admit"
      | AVariant (_, None) | AAssigns ([], _) -> ()
      | _ -> self#reject place "an annotation of another kind");
    Cil.DoChildren

  method! videntified_predicate p =
    self#reject_if (p.ip_content.tp_kind = Admit) p.ip_content.tp_statement.pred_loc "admit";
    Cil.DoChildren

  method! vstmt_aux s =
    let place = Cil_datatype.Stmt.loc s in
    let is_variant a = match a.annot_content with AVariant _ -> true | _ -> false in
    (match s.skind with
      | Loop _ -> self#reject_if (Annotations.code_annot ~filter:is_variant s = []) place "a loop without a variant"
      | Instr (Set ((Var v, NoOffset), e, _)) when v.vtemp ->
        compared <- e :: compared;
        Hashtbl.add is_assigned_enum v.vid (is_enum e)
      | Instr (Local_init (_, ConsInit (f, _, _), _)) -> Hashtbl.add calls self#name f.vname
      | Instr (Call (_, { enode = Lval (Var f, NoOffset); _ }, arguments, _)) ->
        whole <- whole_array f arguments @ whole;
        Hashtbl.add calls self#name f.vname
      | _ -> ());
    Cil.DoChildren

  method! vexpr e =
    (match e.enode with BinOp ((Eq | Ne), a, b, _) -> compared <- a :: b :: compared | _ -> ());
    allow (listed whole compared e) e.eloc (Format.asprintf "the expression %a" Printer.pp_exp e);
    match e.enode with
    | SizeOf _ | SizeOfE _ -> Cil.SkipChildren
    | Lval _ | CastE _ when is_of_kind IChar (Cil.typeOf e) -> report "char" self#name (at_place e.eloc plain_char); Cil.DoChildren
    | CastE (to_, a) ->
      self#reject_if (is_through_a_number to_ (Cil.typeOf a) && not (Cil.isZero a)) e.eloc through_a_number; Cil.DoChildren
    | Lval lval -> self#reject_if (has_array (Cil.typeOfLval lval)) e.eloc read_whole; Cil.DoChildren
    | _ -> Cil.DoChildren

  (* Where a clause names what is assigned, nothing is read. *)
  method! vassigns a =
    let is_tried (t, _) = not (List.mem "no_wp" t.it_content.term_name) in
    (match a with Writes all when List.for_all is_tried all -> () | WritesAny -> ()
      | _ -> self#reject (Cil.CurrentLoc.get ()) not_tried);
    Cil.SkipChildren
  method! vpredicate p = self#reject_if (List.mem "no_wp" p.pred_name) p.pred_loc not_tried; Cil.DoChildren
  method! vterm t =
    self#reject_if (List.mem "no_wp" t.term_name) t.term_loc not_tried;
    (match t.term_node with
      | TCastE (to_, { term_type = Ctype from; _ }) when is_through_a_number to_ from -> self#reject t.term_loc through_a_number
      | TCastE (to_, { term_type = Linteger; _ }) when Cil.isPointerType to_ -> self#reject t.term_loc through_a_number
      | TCastE (to_, _) when is_of_kind IBool to_ -> self#reject t.term_loc "a cast to _Bool, which WP leaves out"
      | TLval _ | TCastE _ when (match t.term_type with Ctype typ -> is_of_kind IChar typ | _ -> false) ->
        report "char" self#name (at_place t.term_loc plain_char)
      | _ -> ());
    match t.term_node, t.term_type with
    | TSizeOfE _, _ -> Cil.SkipChildren
    | _, Ctype typ when has_array typ -> self#reject t.term_loc read_whole; Cil.SkipChildren
    | _ -> Cil.DoChildren
end

(* The functions that call themselves, if only by others. *)
let rec endless names =
  let calls_one f = List.exists (fun g -> List.mem g names) (Hashtbl.find_all calls f) in
  let left = List.filter calls_one names in
  if List.length left = List.length names then names else endless left

(* A function writes only by a pointer: no variable of the files changes. *)
let writes name = match Globals.Functions.find_by_name name with
  | kf -> List.exists (fun v -> Cil.isPointerType v.vtype && not (is_constant_type (pointed v.vtype)))
      (Kernel_function.get_formals kf)
  | exception Not_found -> true

(* Leaves the code that WP reads, without ghosts. *)
class bare = object
  inherit Visitor.frama_c_inplace
  method! vfunc f = f.slocals <- List.filter (fun v -> not v.vghost) f.slocals; Cil.DoChildren
  (* An annotation may stand in a block of its own, or before an empty statement. *)
  method! vblock b =
    let flat b =
      b.bstmts <- List.concat_map (fun s -> match s.skind with
        | Instr (Skip _) when s.labels = [] -> []
        | Block inner when s.labels = [] -> b.blocals <- b.blocals @ inner.blocals; inner.bstmts
        | _ -> [ s ]) b.bstmts;
      b in
    b.bstmts <- List.filter (fun s -> not s.ghost) b.bstmts;
    b.blocals <- List.filter (fun v -> not v.vghost) b.blocals;
    Cil.ChangeDoChildrenPost (b, flat)
end

let is_code g = List.mem (file_of (Cil_datatype.Global.loc g)) [ "base62.c"; "base62.h" ]
  && (match g with GFun ({ svar = v; _ }, _) | GVar (v, _, _) -> not v.vghost | GCompTag _ | GEnumTag _ | GType _ -> true | _ -> false)

let write file lines =
  let out = open_out file in
  List.iter (output_string out) lines;
  close_out out

let main file =
  report "bits" (string_of_int (Cil.bitsSizeOf Cil.theMachine.Cil.typeOfSizeOf)) "";
  read_files ();
  Visitor.visitFramacFileSameGlobals (new walk) (Ast.get ());
  List.iter (fun (name, place) -> allow (not (writes name)) place "a call that may write, within an expression") !Listed.nested_calls;
  let callers = List.sort_uniq compare (Hashtbl.fold (fun f _ all -> f :: all) calls []) in
  List.iter (fun f -> report "rejected" f "it calls itself") (endless callers);
  write file (List.rev_map (fun line -> line ^ "\n") !rows);
  Visitor.visitFramacFile (new bare) (Ast.get ());
  let text = Format.asprintf "\012%a" (Printer.without_annot Printer.pp_global) in
  write (file ^ ".c") (List.map text (List.filter is_code (Ast.get ()).globals))

let () = Db.Main.extend (fun () -> Option.iter main (Sys.getenv_opt "TREE"))
