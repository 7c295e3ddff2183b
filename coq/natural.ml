(* The numbers of `Checker` as the machine has them: those below 2^64. `Extract.v` puts each function
   in the place of one of Coq's; that it returns the same has to be believed. A sum that isn't below
   2^64 raises `Overflow`. *)
exception Overflow

type t = int64

let equal : t -> t -> bool = Int64.equal
let less (a : t) (b : t) = Int64.add a Int64.min_int < Int64.add b Int64.min_int
let at_most a b = not (less b a)
let max a b = if less a b then b else a

let add a b =
  let sum = Int64.add a b in
  if less sum a then raise Overflow else sum

(* The bits of a number above 0, the lowest one outermost. *)
type positive = XI of positive | XO of positive | XH

let rec of_positive = function
  | XH -> 1L
  | XO half -> let n = of_positive half in add n n
  | XI half -> let n = of_positive half in add (add n n) 1L

let rec to_positive n =
  if equal n 1L then XH
  else
    let half = to_positive (Int64.shift_right_logical n 1) in
    if Int64.logand n 1L = 1L then XI half else XO half

(* The numbers in pids, whose bits every look at a process asks for. Each has its half's bits. *)
let small =
  let bits = Array.make 65_536 XH in
  for n = 2 to 65_535 do
    let half = bits.(n / 2) in
    bits.(n) <- (if n land 1 = 1 then XI half else XO half)
  done;
  bits

let cases zero positive n =
  if equal n 0L then zero ()
  else if less n 65_536L then positive small.(Int64.to_int n)
  else positive (to_positive n)

(* The decimal digits. OCaml's own integers hold all numbers below 2^62. *)
let decimal n =
  let rec before digits n =
    let digits = Char.chr (48 + (n mod 10)) :: digits in
    if n < 10 then digits else before digits (n / 10) in
  if less n 0x4000_0000_0000_0000L then before [] (Int64.to_int n)
  else
    let last = Int64.to_int (Int64.unsigned_rem n 10L) in
    before (before [] last) (Int64.to_int (Int64.unsigned_div n 10L))
