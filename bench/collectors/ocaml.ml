(* Answers a trace of bench/engines.py with OCaml's collector: a cell is a block of as many words as it has fields, a
   weak entry an ephemeron in the list of its map. There are no zones and wrappers here: status 3 at a line that asks for
   one. It writes a line once it has collected. *)

type map = { mutable entries : (Obj.t, Obj.t) Ephemeron.K1.t list }

let not_served = 3
let null = Obj.repr 0
let registers = Array.make 16 null

(* The register or the number that a word names. *)
let number word =
  int_of_string (if word.[0] = 'r' then String.sub word 1 (String.length word - 1) else word)

let held word = registers.(number word)
let hold word value = registers.(number word) <- value

let put map key value =
  let entry = Ephemeron.K1.create () in
  Ephemeron.K1.set_key entry (held key);
  Ephemeron.K1.set_data entry (held value);
  let map : map = Obj.obj (held map) in
  map.entries <- entry :: map.entries

let answer = function
  | [ "new"; r; _; n ] -> hold r (Obj.repr (Array.make (max 1 (number n)) null))
  | [ "set"; s; f; t ] -> Obj.set_field (held s) (number f) (held t)
  | [ "copy"; r; s ] -> hold r (held s)
  | [ "drop"; r ] -> hold r null
  | [ "map"; r; _ ] -> hold r (Obj.repr { entries = [] })
  | [ "put"; m; k; v ] -> put m k v
  | "collect" :: _ ->
      Gc.major ();
      print_endline "collected"
  | "zone" :: _ | "comp" :: _ -> ()
  | _ -> exit not_served

let () =
  try
    while true do
      answer (String.split_on_char ' ' (input_line stdin))
    done
  with End_of_file -> ()
