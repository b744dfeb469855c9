(* Gives the bytes of files to the extracted checkers, prints their answer, and ends with its status. Nothing else is done here. *)
open Verified

let usage = "usage: kuifje-confirm CERT A B | [--turns N] (hyper FILE [PRINTED] | leak FILE GAIN | texts CERT FILE FILE)"

(* Where a reason can't be written either, the status says that there is no answer. *)
let refuse words = (try prerr_endline ("kuifje-confirm: " ^ words) with Sys_error _ -> ()); exit 2

(* The most bytes of a program's text, as kuifje has it, and of a certificate or a printed hyper, of which kuifje prints longer ones than it reads. *)
let of_text = 1_048_576
let of_proof = 67_108_864

let bytes most name =
  try
    let file = open_in_bin name in
    let all = Buffer.create 65536 and part = Bytes.create 65536 in
    let rec read () = match input file part 0 65536 with
      | 0 -> ()
      | n -> Buffer.add_subbytes all part 0 n; if Buffer.length all <= most then read () in
    read ();
    close_in file;
    if Buffer.length all > most then refuse (Printf.sprintf "%s: longer than %d bytes" name most);
    let rec from i l = if i < 0 then l else from (i - 1) (Buffer.nth all i :: l) in
    from (Buffer.length all - 1) []
  with Sys_error _ -> refuse (name ^ ": read failed")

let string l = String.of_seq (List.to_seq l)

let int_of = function
  | N0 -> 0
  | Npos p -> let rec go = function XH -> 1 | XO p -> 2 * go p | XI p -> 2 * go p + 1 in go p

let nat_of n = let rec go n m = if n = 0 then m else go (n - 1) (S m) in go n O

(* Long lists are made and soon forgotten: a large young generation is quicker. Its pages are taken as they are used. *)
let () = Gc.set { (Gc.get ()) with minor_heap_size = 32_000_000; space_overhead = 400 }

(* A number as the words of kuifje have it: one to five decimal digits, from 1 to 65,535. *)
let number word =
  let is_digit c = '0' <= c && c <= '9' in
  if 1 <= String.length word && String.length word <= 5 && String.for_all is_digit word then
    let n = int_of_string word in
    if 1 <= n && n <= 65_535 then nat_of n else refuse usage
  else refuse usage

let gain_of word =
  match word, String.split_on_char ':' word with
  | "bayes", _ -> Bayes
  | "guessing", _ -> Guessing
  | _, ["tries"; k] -> Tries (number k)
  | _ -> refuse usage

(* All of an answer is written before it ends with its status. What `exit` would write is lost without a word where a disk is full. *)
let write words =
  try print_string words; flush stdout with Sys_error _ -> refuse "write failed"

(* The answer, and the file that is meant where it is none. *)
let answer (status, words) name ends =
  if int_of status = 2 then refuse (name ^ string words) else (write (string words ^ ends); exit (int_of status))

(* A verdict on two files, which are counted from 1 after the certificate. *)
let verdict files ((status, file), text) =
  answer (status, text) (match file with None -> "" | Some n -> List.nth files (int_of n) ^ ": ") "\n"

let run turns = function
  | ["hyper"; file] -> answer (report_hyper turns (bytes of_text file)) (file ^ ": ") ""
  | ["hyper"; file; printed] ->
      let text = bytes of_text file in
      answer (report_confirmed turns text (bytes of_proof printed)) (file ^ ": ") "\n"
  | ["leak"; file; gain] ->
      let gain = gain_of gain in
      answer (report_leak turns gain (bytes of_text file)) (file ^ ": ") ""
  | "texts" :: ([certificate; a; b] as files) ->
      let certificate = bytes of_proof certificate in
      let a = bytes of_text a in
      verdict files (report_texts turns certificate a (bytes of_text b))
  | [certificate; a; b] as files ->
      let certificate = bytes of_proof certificate in
      let a = bytes of_proof a in
      verdict files (report (confirm certificate a (bytes of_proof b)))
  | _ -> refuse usage

let () =
  Sys.set_signal Sys.sigpipe Sys.Signal_ignore;
  try
    match List.tl (Array.to_list Sys.argv) with
    | "--turns" :: n :: words -> run (number n) words
    | words -> run (nat_of 1024) words
  with Stack_overflow | Out_of_memory -> refuse "want of memory"
