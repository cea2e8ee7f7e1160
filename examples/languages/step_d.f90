! Plans step D and prints it as the bench program does, and then its traffic page; writes its sheet to an archive and reads it
! back; prints its plan's groups; tallies arrivals until the tree gives way.
program step_d
    use, intrinsic :: iso_c_binding, only: c_int8_t, c_int32_t, c_size_t
    use firrozka
    implicit none

    ! 3 nodes, a tolerance of 100 tenths of a percent, 3 cells.
    integer, parameter :: words(9) = [3, 100, 3, 0, 65, 130, 90, 6, 4]
    integer(c_int8_t) :: sheet(4 * size(words)), no_plan(1), plan(firrozka_plan_bytes), moves(firrozka_moves_bytes)
    integer(c_int8_t) :: archive(firrozka_archive_bytes), restored(firrozka_sheet_bytes), groups(firrozka_groups_bytes)
    character(len=firrozka_page_bytes) :: page
    type(firrozka_step) :: step
    type(firrozka_written) :: written, read_back
    type(firrozka_running_tally) :: tally
    type(firrozka_tallied) :: tallied
    integer :: n, k

    sheet = words_to_bytes(words)
    no_plan = 0
    step = firrozka_plan_step(sheet, size(sheet, kind=c_size_t), no_plan, 0_c_size_t, &
                              plan, size(plan, kind=c_size_t), moves, size(moves, kind=c_size_t))
    call accept(step%refusal)

    n = word_at(plan, 0)
    print '("kind ", i0, " limit ", i0)', step%kind, step%limit
    do k = 0, n - 1
        print '("node ", i0, " helps ", i0, " share ", i0, " own ", i0)', k, helpand(k), share(k), own(k)
    end do
    do k = 0, word_at(moves, 1) - 1
        call print_move(int(word_at(moves, 2 + k)), int(word_at(moves, 2 + word_at(moves, 1) + k)))
    end do

    written = firrozka_traffic_page(sheet, size(sheet, kind=c_size_t), moves, int(step%moves_bytes, c_size_t), &
                                    page, len(page, kind=c_size_t))
    call accept(written%refusal)
    ! A line of the page has 24 characters, and a newline, which print puts there itself.
    do k = 1, written%bytes, 25
        print '(a)', page(k:k + 23)
    end do

    written = firrozka_write_archive(sheet, size(sheet, kind=c_size_t), archive, size(archive, kind=c_size_t))
    call accept(written%refusal)
    read_back = firrozka_read_archive(archive, int(written%bytes, c_size_t), restored, size(restored, kind=c_size_t))
    call accept(read_back%refusal)
    print '("archive ", i0, " bytes, read back ", a)', written%bytes, trim(merge('the same', 'another ', same(read_back%bytes)))

    written = firrozka_groups(plan, int(step%plan_bytes, c_size_t), groups, size(groups, kind=c_size_t))
    call accept(written%refusal)
    ! The colon keeps a blank from following the last entry.
    write (*, '("groups even", *(:, 1x, i0))', advance='no') (word_at(groups, k), k = 1, n)
    print '(" odd", *(:, 1x, i0))', (word_at(groups, k), k = n + 1, 2 * n)

    ! Particles of subdomain 0 arrive at node 0 one by one. In a refusal holds is 0, too.
    tallied = tally%open(sheet, plan(:step%plan_bytes))
    k = 0
    do while (tallied%holds /= 0)
        tallied = tally%add(0, 0, 1)
        k = k + 1
    end do
    call accept(tallied%refusal)
    print '("tally: the tree gives way at ", i0, " more of subdomain 0")', k

contains

    subroutine accept(refusal)
        integer(c_int32_t), intent(in) :: refusal

        if (refusal == firrozka_accepted) return
        print '("refused ", i0)', refusal
        stop 1
    end subroutine

    ! Whether so many bytes of what was read back are the sheet.
    logical function same(bytes)
        integer(c_int32_t), intent(in) :: bytes

        same = bytes == size(sheet)
        if (same) same = all(restored(:bytes) == sheet)
    end function

    integer function helpand(node)
        integer, intent(in) :: node
        helpand = word_at(plan, 3 + node)
    end function

    integer function share(node)
        integer, intent(in) :: node
        share = word_at(plan, 3 + n + node)
    end function

    ! A node's amount of its own subdomain: Pn less the shares of its helpers. A root's share is 0.
    integer function own(node)
        integer, intent(in) :: node
        integer :: e, i

        own = 0
        e = word_at(sheet, 2)
        do i = 0, e - 1
            if (mod(int(word_at(sheet, 3 + i)), 64) == node) own = own + word_at(sheet, 3 + e + i)
        end do
        do i = 0, n - 1
            if (helpand(i) == node) own = own - share(i)
        end do
    end function

    ! A route is subdomain x 4,096 + sender x 64 + receiver.
    subroutine print_move(route, count)
        integer, intent(in) :: route, count
        print '("move ", i0, " from ", i0, " to ", i0, " count ", i0)', &
            route / 4096, mod(route / 64, 64), mod(route, 64), count
    end subroutine
end program
