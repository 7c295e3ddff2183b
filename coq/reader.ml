(* Reads the text of a bundle, or names its first fault. Nobody has to trust it: what it reads,
   `Checker` writes again and compares. *)
exception Fault of string

(* Where a line is read. *)
type cursor = { text : string; mutable at : int; mutable stop : int }

open Checker

(* A line that no bundle has there. *)
exception Strange

let greatest_text = 67_108_864
let greatest_processes = 1_024
let greatest_events = 1_000_000
let greatest_acts = 4_000_000
let greatest_label = 0xffff_ffff

(* The words of a line *)

let expect line word =
  let length = String.length word in
  if line.at + length > line.stop then raise Strange;
  for k = 0 to length - 1 do
    if String.unsafe_get line.text (line.at + k) <> String.unsafe_get word k then raise Strange
  done;
  line.at <- line.at + length

let takes line word =
  match expect line word with () -> true | exception Strange -> false

let at_end line = if line.at <> line.stop then raise Strange

let is_digit c = c >= '0' && c <= '9'

(* The digits that come next; a number has no leading zero. *)
let digits line =
  let first = line.at in
  while line.at < line.stop && is_digit (String.unsafe_get line.text line.at) do
    line.at <- line.at + 1
  done;
  let length = line.at - first in
  if length = 0 || (length > 1 && line.text.[first] = '0') then raise Strange;
  (first, length)

let value line first length =
  let sum = ref 0 in
  for k = first to first + length - 1 do
    sum := (10 * !sum) + Char.code (String.unsafe_get line.text k) - 48
  done;
  !sum

let small line most =
  let first, length = digits line in
  if length > 10 then raise Strange;
  let number = value line first length in
  if number > most then raise Strange;
  number

let label line = Int64.of_int (small line greatest_label)

let number line =
  let first, length = digits line in
  if length <= 18 then Int64.of_int (value line first length)
  else
    match Int64.of_string ("0u" ^ String.sub line.text first length) with
    | number -> number
    | exception Failure _ -> raise Strange

let truth line = takes line "true" || (expect line "false"; false)

(* The state after all lines so far *)

module Codes = Hashtbl.Make (struct
  type t = int
  let equal = Int.equal
  let hash code = code
end)

type known = {
  line : cursor;
  mutable number_of_line : int;
  mutable with_nodes : bool;
  mutable names_node : bool;
  pids : pid Codes.t;
  listed : unit Codes.t;
  named : int Codes.t; (* by pid the first line that names it, before it is listed *)
}

let pid_of known code =
  match Codes.find_opt known.pids code with
  | Some pid -> pid
  | None ->
      let pid = (Int64.of_int (code lsr 16), Int64.of_int (code land 0xffff)) in
      Codes.add known.pids code pid;
      pid

(* A pid as one number. *)
let pid known =
  let line = known.line in
  expect line "<";
  let node = small line 0xffff in
  expect line ".";
  let number = small line 0xffff in
  expect line ".0>";
  if node <> 0 then begin
    if not known.with_nodes then raise Strange;
    known.names_node <- true
  end;
  (node lsl 16) lor number

let name known code =
  if not (Codes.mem known.listed code || Codes.mem known.named code) then
    Codes.add known.named code known.number_of_line

(* A pid that has to be listed somewhere, as one number and as itself. *)
let listed_code known =
  let code = pid known in
  name known code;
  code

let listed_pid known = pid_of known (listed_code known)

let any_pid known = pid_of known (pid known)

(* Lines *)

let event known owner =
  let line = known.line in
  expect line "{seq_trace,";
  let e_label = label line in
  expect line ",{";
  let e_kind =
    if takes line "send" then KSend else if takes line "'receive'" then KReceive
    else (expect line "print"; KPrint) in
  expect line ",{";
  let e_prev = number line in
  expect line ",";
  let e_this = number line in
  expect line "},";
  let from = pid known in
  expect line ",";
  let target =
    match e_kind with KPrint -> expect line "[]"; None | KSend | KReceive -> Some (pid known) in
  expect line ",";
  let e_value = number line in
  expect line "}}";
  at_end line;
  let own =
    match (e_kind, target) with
    | KReceive, Some code -> Int.equal code owner
    | _ -> Int.equal from owner in
  if not own then raise (Fault (Printf.sprintf "foreign %d" known.number_of_line));
  name known from;
  Option.iter (name known) target;
  { e_label; e_kind; e_prev; e_this; e_from = pid_of known from;
    e_to = Option.map (pid_of known) target; e_value }

let space line = expect line " "

let spaced read known = space known.line; read known
let spaced_number known = space known.line; number known.line
let spaced_label known = space known.line; label known.line
let spaced_truth known = space known.line; truth known.line

let want known =
  let line = known.line in
  space line;
  if takes line "first" then First
  else if takes line "from" then From (spaced any_pid known)
  else if takes line "value" then Value (spaced_number known)
  else if takes line "both" then
    let from = spaced any_pid known in
    Both (from, spaced_number known)
  else (expect line "place"; Place (spaced_number known))

let component known =
  let line = known.line in
  space line;
  if takes line "label" then CLabel (spaced_label known)
  else if takes line "send" then CSend (spaced_truth known)
  else if takes line "receive" then CReceive (spaced_truth known)
  else (expect line "print"; CPrint (spaced_truth known))

let token known =
  let t_label = spaced_label known in
  let t_send = spaced_truth known in
  let t_receive = spaced_truth known in
  let t_print = spaced_truth known in
  let t_prev = spaced_number known in
  let t_this = spaced_number known in
  let t_from = spaced any_pid known in
  { t_label; t_send; t_receive; t_print; t_prev; t_this; t_from }

let act known =
  let line = known.line in
  let starts word = takes line word in
  let actor () = listed_pid known in
  let read =
    if starts "send " then
      let actor = actor () in
      let target = spaced listed_pid known in
      Send (actor, target, spaced_number known)
    else if starts "receive " then let actor = actor () in Receive (actor, want known)
    else if starts "print " then let actor = actor () in Print (actor, spaced_number known)
    else if starts "printat " then
      let actor = actor () in
      let label = spaced_label known in
      PrintAt (actor, label, spaced_number known)
    else if starts "set " then let actor = actor () in Set_ (actor, component known)
    else if starts "clear " then Clear (actor ())
    else if starts "restore " then let actor = actor () in Restore (actor, token known)
    else if starts "look " then Look (actor ())
    else if starts "reset " then Reset (actor ())
    else (expect line "tracer "; let actor = actor () in Tracer (actor, spaced_truth known))
  in
  at_end line;
  read

(* Texts *)

(* Goes to the next line, if a newline ends it. *)
let next_line known =
  let line = known.line in
  let start = if known.number_of_line = 0 then 0 else line.stop + 1 in
  match String.index_from_opt line.text start '\n' with
  | None -> false
  | Some stop ->
      line.at <- start;
      line.stop <- stop;
      known.number_of_line <- known.number_of_line + 1;
      true

let fault known word = raise (Fault (Printf.sprintf "%s %d" word known.number_of_line))

(* The result of `read` on the line; a fault if it's no such line. A line of which too many came
   is faulty for that only if nothing else is. *)
let read_line known read count most =
  match read known with
  | made -> if count > most then fault known "too many" else made
  | exception Strange -> fault known "line"

let process known previous =
  expect known.line "process ";
  let code = pid known in
  at_end known.line;
  if code <= previous then fault known "order";
  Codes.replace known.listed code ();
  code

let rec acts known done_ count =
  if not (next_line known) then List.rev done_
  else acts known (read_line known act (count + 1) greatest_acts :: done_) (count + 1)

let is_acts known =
  let line = known.line in
  line.stop - line.at = 4 && String.sub line.text line.at 4 = "acts"

(* The streams so far, the last one backwards and with its process; then the acts, if there are any. *)
let rec streams known complete current processes events =
  let complete_now () =
    match current with
    | None -> complete
    | Some (code, es) -> (pid_of known code, List.rev es) :: complete in
  if not (next_line known) then { b_streams = List.rev (complete_now ()); b_acts = None }
  else if is_acts known then
    { b_streams = List.rev (complete_now ()); b_acts = Some (acts known [] 0) }
  else
    match (known.line.text.[known.line.at], current) with
    | '{', Some (code, es) ->
        let e = read_line known (fun known -> event known code) (events + 1) greatest_events in
        streams known complete (Some (code, e :: es)) processes (events + 1)
    | _ ->
        let previous = match current with None -> -1 | Some (code, _) -> code in
        let read known = process known previous in
        let code = read_line known read (processes + 1) greatest_processes in
        streams known (complete_now ()) (Some (code, [])) (processes + 1) events

let header known =
  if takes known.line "seqtrace 2" then known.with_nodes <- true
  else expect known.line "seqtrace 1";
  at_end known.line

let first_unknown known =
  Codes.fold
    (fun code line least -> if Codes.mem known.listed code then least else min line least)
    known.named max_int

let read text =
  let length = String.length text in
  if length > greatest_text then raise (Fault "too large");
  let known =
    { line = { text; at = 0; stop = 0 }; number_of_line = 0; with_nodes = false; names_node = false;
      pids = Codes.create 64; listed = Codes.create 64; named = Codes.create 64 } in
  if not (next_line known) then raise (Fault "truncated");
  read_line known header 0 0;
  let bundle = streams known [] None 0 0 in
  if text.[length - 1] <> '\n' then raise (Fault "truncated");
  if known.with_nodes && not known.names_node then raise (Fault "line 1");
  let unknown = first_unknown known in
  if unknown < max_int then raise (Fault (Printf.sprintf "unknown %d" unknown));
  bundle
