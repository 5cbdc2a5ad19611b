(* pocsag-verify: the checks of Checks.v for files.  Nothing here is proved. *)

exception Refused of int * string

open Checks

let largest_file = 268435456

let rec positive n = if n = 1 then XH else if n land 1 = 0 then XO (positive (n / 2)) else XI (positive (n / 2))
let number n = if n = 0 then N0 else Npos (positive n)
let rec int_of_positive = function XH -> 1 | XO p -> 2 * int_of_positive p | XI p -> (2 * int_of_positive p) + 1
let int_of = function N0 -> 0 | Npos p -> int_of_positive p
let numbers = Array.init 256 number

(* The bytes of a file. *)
let read name =
  let file = try open_in_bin name with Sys_error e -> raise (Refused (3, e)) in
  let buffer = Buffer.create 65536 and chunk = Bytes.create 65536 in
  let rec go () =
    let n = input file chunk 0 65536 in
    Buffer.add_subbytes buffer chunk 0 n;
    if Buffer.length buffer > largest_file then raise (Refused (1, "the file is too large"));
    if n > 0 then go ()
  in
  (try go () with Sys_error e -> raise (Refused (3, name ^ ": " ^ e)));
  close_in file;
  let rec list i bytes = if i < 0 then bytes else list (i - 1) (numbers.(Char.code (Buffer.nth buffer i)) :: bytes) in
  list (Buffer.length buffer - 1) []

let told = function OpenEnd -> "" | ClosedEnd -> " with a closed end" | IdleEnd -> " with an idle last"

(* Tells the bound; what is no bound has status 1. *)
let tell_bound = function
  | RefusedFile -> raise (Refused (1, "not a page file"))
  | NoCertificate -> raise (Refused (1, "not a certificate"))
  | NotShown -> print_string "not shown\n"; 1
  | Shown (e, b) -> Printf.printf "at least %d batches%s\n" (int_of b) (told e); 0

(* Tells the batches of the transmission too; where they are not the fewest the status is 1. *)
let tell_plan answer batches =
  match (answer, batches) with
  | Shown _, None -> raise (Refused (1, "not a legal transmission of the round"))
  | Shown (_, least), Some b -> Printf.printf "batches %d\n" (int_of b); if b = least then 0 else 1
  | _ -> 1

let run = function
  | [ pages; cert ] -> tell_bound (check (read pages) (read cert))
  | [ pages; tx; cert ] ->
      let answer, batches = check_plan (read pages) (read tx) (read cert) in
      let status = tell_bound answer in
      max status (tell_plan answer batches)
  | _ -> raise (Refused (2, "the words are PAGES CERT or PAGES TX CERT"))

let () =
  Gc.set { (Gc.get ()) with minor_heap_size = 1048576; space_overhead = 200 };
  let fail status why = prerr_endline ("pocsag-verify: " ^ why); exit status in
  match run (List.tl (Array.to_list Sys.argv)) with
  | status -> (match flush stdout with () -> exit status | exception Sys_error why -> fail 3 why)
  | exception Refused (status, why) -> fail status why
  | exception (Out_of_memory | Stack_overflow) -> fail 3 "out of memory"
