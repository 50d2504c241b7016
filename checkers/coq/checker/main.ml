(* check: hands the bytes of standard input to the checker that Coq made, one by one, and writes its answer. This file is not proved. *)

let rec judged state buffer =
  match state with
  | Checked.Answered _ -> state
  | Checked.Reading _ -> (
      match input stdin buffer 0 (Bytes.length buffer) with
      | 0 -> state
      | count ->
          let state = ref state in
          for at = 0 to count - 1 do
            state := Checked.take !state (Bytes.get buffer at)
          done;
          judged !state buffer)

let rec number = function Checked.O -> 0 | Checked.S n -> 1 + number n

let ended status output =
  match
    List.iter print_char output;
    flush stdout
  with
  | () -> exit status
  | exception Sys_error _ -> Unix._exit 6

let chars text = List.of_seq (String.to_seq text)

let () =
  set_binary_mode_in stdin true;
  match Array.to_list Sys.argv with
  | [ _; "check" ] -> (
      match Checked.answer_of (judged Checked.start (Bytes.create 65536)) with
      | status, output -> ended (number status) output
      | exception Sys_error _ -> ended 5 (chars "read fault\n")
      | exception Out_of_memory -> ended 7 (chars "out of memory\n"))
  | _ -> ended 2 (chars "bad words\n")
