*> examples/first from COBOL: what its script does, by the storage and the paragraphs that `sqmod bind-cobol` made of the module.
identification division.
program-id. first.

environment division.
input-output section.
file-control.
    select text-file assign to file-name
        organization is line sequential
        file status is file-status.

data division.
file section.
fd text-file.
01 text-line pic x(256).

working-storage section.
01 file-name pic x(256).
01 file-status pic xx.
01 text-place pic 9(5) comp.

01 code-shown pic -(9)9.
01 a-shown pic -(9)9.
01 b-shown pic -(9)9.

copy "first_bound.cpy".

procedure division.
first-part.
    perform sqmod-new
    perform expect-done
    perform read-text
    perform sqmod-add-schema
    perform expect-done
    perform read-text
    perform sqmod-add-module
    perform expect-done
    perform sqmod-open
    perform expect-done

    move 1 to a of addrow
    move -2 to b of addrow
    perform add-row
    move 3 to a of addrow
    move 4 to b of addrow
    perform add-row

    perform call-opx
    perform expect-done
    move sqlcode of opx to code-shown
    display "OPX " function trim(code-shown)

    perform fetch-row
    perform until sqlcode of nextrow not = 0
        display "NEXTROW " function trim(code-shown)
            " A=" function trim(a-shown) " B=" function trim(b-shown)
        perform fetch-row
    end-perform
    display "NEXTROW " function trim(code-shown)

    perform close-rows
    perform close-rows
    perform sqmod-cause
    perform expect-done
    display "CLX: " function trim(sqmod-room)

    perform sqmod-close
    perform expect-done
    stop run.

add-row.
    perform call-addrow
    perform expect-done
    move sqlcode of addrow to code-shown
    display "ADDROW " function trim(code-shown).

fetch-row.
    perform call-nextrow
    perform expect-done
    move sqlcode of nextrow to code-shown
    move a of nextrow to a-shown
    move b of nextrow to b-shown.

close-rows.
    perform call-clx
    perform expect-done
    move sqlcode of clx to code-shown
    display "CLX " function trim(code-shown).

*> The text of the file that the next word of the command line names.
read-text.
    accept file-name from argument-value
    open input text-file
    if file-status not = "00"
        display "cannot read " function trim(file-name) upon syserr
        stop run returning 1
    end-if
    move 1 to text-place
    perform until file-status = "10"
        read text-file
            not at end
                string function trim(text-line trailing) x"0a" delimited by size
                    into sqmod-text with pointer text-place
                end-string
        end-read
    end-perform
    close text-file
    compute sqmod-text-length = text-place - 1.

*> Ends the program where the library didn't do what it was asked.
expect-done.
    if not sqmod-done
        perform sqmod-refusal
        display "sqmod answered " sqmod-answer " " function trim(sqmod-room) upon syserr
        stop run returning 2
    end-if.

copy "first_bound.cpy".
