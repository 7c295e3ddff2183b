(* Writes of each pair of numbers that it reads what `Natural` says: the digits of the first, its digits after it was taken apart
   into bits, and its bits; whether it equals the second, is less, or at most that; the greater one; and the sum, or a dash. *)
let text n = String.of_seq (List.to_seq (Natural.decimal n))

let rec bits = function Natural.XH -> "1" | XO half -> bits half ^ "0" | XI half -> bits half ^ "1"

let sum m n = match Natural.add m n with total -> text total | exception Natural.Overflow -> "-"

let compared m n =
  let in_bits = Natural.cases (fun () -> "0") bits m in
  let back = Natural.cases (fun () -> 0L) Natural.of_positive m in
  Printf.printf "%s %s %s %b %b %b %s %s\n" (text m) (text back) in_bits (Natural.equal m n)
    (Natural.less m n) (Natural.at_most m n) (text (Natural.max m n)) (sum m n)

let () =
  try
    while true do
      Scanf.scanf " %s %s" (fun m n ->
        if m = "" then raise End_of_file;
        compared (Int64.of_string ("0u" ^ m)) (Int64.of_string ("0u" ^ n)))
    done
  with End_of_file -> ()
