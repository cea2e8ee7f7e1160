! Twelve steps of a small simulation: in each the inlet's particles are joined with the resident ones, and the step is planned
! beside the plan of the step before and carried out.
program many_steps
    use, intrinsic :: iso_c_binding, only: c_int8_t, c_int32_t, c_size_t
    use firrozka
    implicit none

    ! The tolerance is in tenths of a percent.
    integer, parameter :: nodes = 5, tolerance = 100, steps = 12
    integer :: held(0:nodes - 1, 0:nodes - 1) ! how many particles of subdomain n node k holds: held(n, k)
    integer(c_int8_t), dimension(firrozka_sheet_bytes) :: resident, inlet, sheet, next
    integer(c_int8_t) :: plans(firrozka_plan_bytes, 2), moves(firrozka_moves_bytes)
    integer(c_size_t) :: resident_len, inlet_len, sheet_len, old_len
    type(firrozka_step) :: step
    type(firrozka_written) :: joined, written
    integer :: number, old, new, k

    held = 0
    do k = 0, nodes - 1
        held(k, k) = 1000
    end do
    old = 1
    new = 2
    old_len = 0 ! no old plan yet
    do number = 1, steps
        call flow
        call write_resident
        call write_inlet(number)
        joined = firrozka_join_sheets(resident, resident_len, inlet, inlet_len, sheet, firrozka_sheet_bytes)
        call accept(joined%refusal)
        sheet_len = joined%bytes
        step = firrozka_plan_step(sheet, sheet_len, plans(:, old), old_len, &
                                  plans(:, new), firrozka_plan_bytes, moves, firrozka_moves_bytes)
        call accept(step%refusal)
        print '("step ", i0, " kind ", i0, " limit ", i0, " moves ", i0, " particles ", i0)', &
            number, step%kind, step%limit, word_at(moves, 1), particles_moved()
        ! Here a simulation sends the particles; the sheet that follows has the counts thereafter.
        written = firrozka_carry_out(sheet, sheet_len, moves, int(step%moves_bytes, c_size_t), next, firrozka_sheet_bytes)
        call accept(written%refusal)
        call read_counts(next)
        ! Two buffers in turn: the plan of this step is the old plan of the next.
        old_len = step%plan_bytes
        old = new
        new = 3 - old
    end do
    print '("loads", *(1x, i0))', sum(held, dim=1)

contains

    ! A quarter of each count crosses into the next subdomain.
    subroutine flow
        integer :: crossing(0:nodes - 1, 0:nodes - 1)

        crossing = held / 4
        held = held - crossing + cshift(crossing, -1, dim=1)
    end subroutine

    ! Writes the counts as a sheet. Cells rise as the array lies: by node, then by subdomain.
    subroutine write_resident
        integer :: n, k
        integer, parameter :: cells(nodes, nodes) = reshape([((64 * k + n, n = 0, nodes - 1), k = 0, nodes - 1)], [nodes, nodes])

        call write_words([nodes, tolerance, count(held > 0), pack(cells, held > 0), pack(held, held > 0)], resident, resident_len)
    end subroutine

    ! The same of what the inlet brings: 300 particles of subdomain 0 to node 0 in steps 3 to 5, and else none.
    subroutine write_inlet(number)
        integer, intent(in) :: number

        if (3 <= number .and. number <= 5) then
            call write_words([nodes, tolerance, 1, 0, 300], inlet, inlet_len)
        else
            call write_words([nodes, tolerance, 0], inlet, inlet_len)
        end if
    end subroutine

    ! Writes the words of a record, and gives its length in bytes.
    subroutine write_words(words, record, length)
        integer, intent(in) :: words(:)
        integer(c_int8_t), intent(inout) :: record(:)
        integer(c_size_t), intent(out) :: length

        length = 4 * size(words)
        record(:length) = words_to_bytes(words)
    end subroutine

    ! Takes the counts from a sheet. A cell that is absent counts as 0.
    subroutine read_counts(record)
        integer(c_int8_t), intent(in) :: record(:)
        integer :: e, i, cell

        held = 0
        e = word_at(record, 2)
        do i = 0, e - 1
            cell = word_at(record, 3 + i)
            held(mod(cell, 64), cell / 64) = word_at(record, 3 + e + i)
        end do
    end subroutine

    integer function particles_moved()
        integer :: e, i

        particles_moved = 0
        e = word_at(moves, 1)
        do i = 0, e - 1
            particles_moved = particles_moved + word_at(moves, 2 + e + i)
        end do
    end function

    subroutine accept(refusal)
        integer(c_int32_t), intent(in) :: refusal

        if (refusal == firrozka_accepted) return
        print '("refused ", i0)', refusal
        error stop 1
    end subroutine
end program
