! Calls each function through the module and stops at the first answer that is not document 01's or 02's.
program check
    use, intrinsic :: iso_c_binding, only: c_int8_t, c_int32_t, c_int64_t, c_size_t, c_sizeof
    use firrozka
    implicit none

    ! Step D's sheet; an old plan with helpands 0, 0, 1, and step H's sheet, which keeps it; and step J's plan, of kind 0.
    integer(c_int8_t), parameter :: none(1) = [0_c_int8_t], untouched = -91_c_int8_t
    integer(c_int8_t) :: d(36), chain(36), h(28), roots(36)
    integer(c_int8_t) :: plan(firrozka_plan_bytes), moves(firrozka_moves_bytes)
    integer(c_int8_t) :: next(firrozka_sheet_bytes), least(firrozka_least_bytes)
    type(firrozka_sheet) :: sheet
    type(firrozka_plan) :: read
    type(firrozka_moves) :: list
    type(firrozka_weighed) :: weighed
    type(firrozka_step) :: step
    type(firrozka_written) :: written
    type(firrozka_part) :: part

    d = words_to_bytes([3, 100, 3, 0, 65, 130, 90, 6, 4])
    chain = words_to_bytes([3, 2, 36, 0, 0, 1, 0, 0, 0])
    h = words_to_bytes([3, 100, 2, 0, 65, 28, 72])
    roots = words_to_bytes([3, 0, 36, 0, 1, 2, 0, 0, 0])

    sheet = firrozka_read_sheet(d, size(d, kind=c_size_t))
    call same([sheet%refusal, sheet%n, sheet%t, sheet%e, sheet%p, sheet%limit], [0, 3, 100, 3, 100, 36])
    sheet = firrozka_read_sheet(d, 35_c_size_t)
    call same([sheet%refusal, sheet%n, sheet%t, sheet%e, sheet%p, sheet%limit], &
              [integer :: firrozka_sheet_length, 0, 0, 0, 0, 0])

    read = firrozka_read_plan(chain, size(chain, kind=c_size_t))
    call same([read%refusal, read%n, read%kind, read%limit], [integer :: 0, 3, firrozka_rebuilt, 36])

    weighed = firrozka_weigh(h, size(h, kind=c_size_t), chain, size(chain, kind=c_size_t), least, firrozka_least_bytes)
    call same([weighed%refusal, weighed%holds], [0, 1])
    call same([word_at(least, 0), word_at(least, 1), word_at(least, 2)], [28, 36, 0])
    weighed = firrozka_weigh(h, size(h, kind=c_size_t), chain, size(chain, kind=c_size_t), least, 11_c_size_t)
    call same([weighed%refusal, weighed%holds], [integer :: firrozka_least_buffer, 0])

    step = firrozka_plan_step(d, size(d, kind=c_size_t), none, 0_c_size_t, plan, firrozka_plan_bytes, moves, firrozka_moves_bytes)
    call same([step%refusal, step%kind, step%limit, step%plan_bytes, step%moves_bytes], &
              [integer :: 0, firrozka_rebuilt, 36, 36, 24])

    list = firrozka_read_moves(moves, int(step%moves_bytes, c_size_t))
    call same([list%refusal, list%n, list%e], [0, 3, 2])

    written = firrozka_carry_out(d, size(d, kind=c_size_t), moves, int(step%moves_bytes, c_size_t), next, firrozka_sheet_bytes)
    call same([written%refusal, written%bytes, word_at(next, 2)], [0, 52, 5])

    step = firrozka_plan_step(h, size(h, kind=c_size_t), chain, size(chain, kind=c_size_t), &
                              plan, firrozka_plan_bytes, moves, firrozka_moves_bytes)
    call same([step%refusal, step%kind, step%limit, step%plan_bytes, step%moves_bytes], &
              [integer :: 0, firrozka_kept, 36, 36, 16])
    part = firrozka_tree_in_force(chain, size(chain, kind=c_size_t), plan, int(step%plan_bytes, c_size_t))
    call same([part%source, part%start, part%length], [integer :: firrozka_old_plan, 12, 12])

    ! A new plan of kind 0 gives its roots; an old plan of length 0 gives the empty stretch.
    part = firrozka_tree_in_force(chain, size(chain, kind=c_size_t), roots, size(roots, kind=c_size_t))
    call same([part%source, part%start, part%length], [integer :: firrozka_new_plan, 12, 12])
    part = firrozka_tree_in_force(none, 0_c_size_t, roots, size(roots, kind=c_size_t))
    call same([part%source, part%start, part%length], [integer :: firrozka_new_plan, 0, 0])

    call same([firrozka_version()], [integer :: firrozka_module_version])
    call check_join
    call check_traffic
    call check_write_archive
    call check_read_archive
    call check_groups
    call check_tally
    call check_tally_refused
    call check_not_opened
    call check_words

contains

    ! Step D's sheet and that of what the gas inlet injects at node 0, 17 of subdomain 0 and 3 of subdomain 1. Neither 2 nodes nor
    ! 3.5 percent will do; with 999,999,901 particles D's 100 are one too many.
    subroutine check_join
        integer(c_int8_t) :: inlet(28), joined(44)

        inlet = words_to_bytes([3, 100, 2, 0, 1, 17, 3])
        joined = words_to_bytes([3, 100, 4, 0, 1, 65, 130, 107, 3, 6, 4])
        next = untouched
        written = firrozka_join_sheets(d, size(d, kind=c_size_t), inlet, size(inlet, kind=c_size_t), next, 44_c_size_t)
        call same([written%refusal, written%bytes], [0, 44])
        call same([count(next(:44) /= joined, kind=c_int32_t), count(next(45:) /= untouched, kind=c_int32_t)], [0, 0])

        call check_not_joined(firrozka_sheet_length, inlet(:27), firrozka_sheet_bytes)
        call check_not_joined(firrozka_sheets_differ, words_to_bytes([2, 100, 0]), firrozka_sheet_bytes)
        call check_not_joined(firrozka_sheets_differ, words_to_bytes([3, 35, 0]), firrozka_sheet_bytes)
        call check_not_joined(firrozka_sheet_count, words_to_bytes([3, 100, 1, 0, 999999901]), firrozka_sheet_bytes)
        call check_not_joined(firrozka_joined_buffer, inlet, 43_c_size_t)
    end subroutine

    ! Step D's sheet and this one are not joined, and the buffer is left alone.
    subroutine check_not_joined(refusal, second, out_len)
        integer(c_int32_t), intent(in) :: refusal
        integer(c_int8_t), intent(in) :: second(:)
        integer(c_size_t), intent(in) :: out_len

        next = untouched
        written = firrozka_join_sheets(d, size(d, kind=c_size_t), second, size(second, kind=c_size_t), next, out_len)
        call same([written%refusal, written%bytes, count(next /= untouched, kind=c_int32_t)], [integer :: refusal, 0, 0])
    end subroutine

    ! Nodes 0, 1 and 2 hold 34 and 3, 23, and 1,200 particles.
    function busy_sheet() result(busy)
        integer(c_int8_t) :: busy(44)

        busy = words_to_bytes([3, 100, 4, 0, 1, 65, 128, 34, 3, 23, 1200])
    end function

    ! On the busy sheet node 2 sends 1,000 of subdomain 0 to node 0 and 7 to node 1; of subdomain 1 node 0 sends 3 to node 1, and
    ! node 1 sends 20 to node 2. Refused are a move from node 0 to itself, moves of 2 nodes, and 24 where node 1 has 23.
    subroutine check_traffic
        character(len=*), parameter :: lines(4) = [' 0          3       1000', ' 1         20         10', &
                                                   ' 2       1007         20', '==       1030       1030']
        character(len=firrozka_page_bytes) :: page
        integer(c_int8_t) :: busy(44), traffic(40)
        integer :: k

        busy = busy_sheet()
        traffic = words_to_bytes([3, 4, 128, 129, 4097, 4162, 1000, 7, 3, 20])
        page = repeat('~', len(page))
        written = firrozka_traffic_page(busy, size(busy, kind=c_size_t), traffic, size(traffic, kind=c_size_t), &
                                        page, len(page, kind=c_size_t))
        call same([written%refusal, written%bytes, verify(page(101:), '~', kind=c_int32_t)], [0, 100, 0])
        call same([count([(page(25 * k - 24:25 * k) /= lines(k) // achar(10), k = 1, 4)], kind=c_int32_t)], [0])
        ! A buffer of just this length.
        written = firrozka_traffic_page(busy, size(busy, kind=c_size_t), traffic, size(traffic, kind=c_size_t), page, 100_c_size_t)
        call same([written%refusal, written%bytes], [0, 100])

        call check_no_page(firrozka_sheet_length, busy(:43), traffic, firrozka_page_bytes)
        call check_no_page(firrozka_moves_route, busy, words_to_bytes([3, 1, 0, 1]), firrozka_page_bytes)
        call check_no_page(firrozka_moves_nodes_differ, busy, words_to_bytes([2, 0]), firrozka_page_bytes)
        call check_no_page(firrozka_moves_sends, busy, words_to_bytes([3, 1, 4162, 24]), firrozka_page_bytes)
        call check_no_page(firrozka_page_buffer, busy, traffic, 99_c_size_t)
    end subroutine

    ! Of this sheet and these moves there is no page, and the buffer is left alone.
    subroutine check_no_page(refusal, busy, traffic, page_len)
        integer(c_int32_t), intent(in) :: refusal
        integer(c_int8_t), intent(in) :: busy(:), traffic(:)
        integer(c_size_t), intent(in) :: page_len
        character(len=firrozka_page_bytes) :: page

        page = repeat('~', len(page))
        written = firrozka_traffic_page(busy, size(busy, kind=c_size_t), traffic, size(traffic, kind=c_size_t), page, page_len)
        call same([written%refusal, written%bytes, verify(page, '~', kind=c_int32_t)], [integer :: refusal, 0, 0])
    end subroutine

    ! The archive of the busy sheet, with another word at a place, which is counted from 0. Its cells are holder and subdomain 0 0,
    ! 0 1, 1 1 and 2 0, and stand at positions 0, 1, 3 and 8.
    function busy_archive(place, word) result(archive)
        integer, intent(in) :: place, word
        integer(c_int8_t) :: archive(firrozka_archive_bytes)
        integer :: words(0:4097)

        words = 0
        words(0:1) = [3, 100]
        words([2, 3, 5, 10]) = [34, 3, 23, 1200]
        words(place) = word
        archive = words_to_bytes(words)
    end function

    subroutine check_write_archive
        integer(c_int8_t) :: archive(firrozka_archive_bytes + 4), expected(firrozka_archive_bytes)

        expected = busy_archive(0, 3)
        archive = untouched
        written = firrozka_write_archive(busy_sheet(), 44_c_size_t, archive, size(archive, kind=c_size_t))
        call same([written%refusal, written%bytes], [0, 16392])
        call same([count(archive(:16392) /= expected, kind=c_int32_t), count(archive(16393:) /= untouched, kind=c_int32_t)], [0, 0])
        ! A buffer of just this length.
        written = firrozka_write_archive(busy_sheet(), 44_c_size_t, archive, firrozka_archive_bytes)
        call same([written%refusal, written%bytes], [0, 16392])

        archive = untouched
        written = firrozka_write_archive(busy_sheet(), 43_c_size_t, archive, firrozka_archive_bytes)
        call same([written%refusal, written%bytes], [integer :: firrozka_sheet_length, 0])
        written = firrozka_write_archive(busy_sheet(), 44_c_size_t, archive, firrozka_archive_bytes - 1)
        call same([written%refusal, written%bytes], [integer :: firrozka_archive_buffer, 0])
        call same([count(archive /= untouched, kind=c_int32_t)], [0])
    end subroutine

    ! Refused are 65 nodes, 100 percent, a count of subdomain 3 and one of holder 3, a particle too many, and a sum that would be
    ! 1,226 in 32 bits.
    subroutine check_read_archive
        integer(c_int8_t) :: busy(44)

        busy = busy_sheet()
        next = untouched
        written = firrozka_read_archive(busy_archive(0, 3), firrozka_archive_bytes, next, firrozka_sheet_bytes)
        call same([written%refusal, written%bytes], [0, 44])
        call same([count(next(:44) /= busy, kind=c_int32_t), count(next(45:) /= untouched, kind=c_int32_t)], [0, 0])
        ! A buffer of just this length.
        written = firrozka_read_archive(busy_archive(0, 3), firrozka_archive_bytes, next, 44_c_size_t)
        call same([written%refusal, written%bytes], [0, 44])

        ! 54 comes before 2.
        next = untouched
        written = firrozka_read_archive(busy_archive(0, 65), firrozka_archive_bytes - 1, next, firrozka_sheet_bytes)
        call same([written%refusal, written%bytes], [integer :: firrozka_archive_length, 0])
        written = firrozka_read_archive(busy_archive(0, 3), firrozka_archive_bytes, next, 43_c_size_t)
        call same([written%refusal, written%bytes], [integer :: firrozka_archive_buffer, 0])
        call same([count(next /= untouched, kind=c_int32_t)], [0])
        call check_not_read(firrozka_sheet_nodes, 0, 65)
        call check_not_read(firrozka_sheet_tolerance, 1, 1000)
        call check_not_read(firrozka_archive_count, 2 + 5, 1)
        call check_not_read(firrozka_archive_count, 2 + 10, 1)
        call check_not_read(firrozka_archive_count, 2, 1000000001 - 1226)
        call check_not_read(firrozka_archive_count, 2 + 2, -34)
    end subroutine

    ! The archive with another word at a place is refused, and the buffer is left alone.
    subroutine check_not_read(refusal, place, word)
        integer(c_int32_t), intent(in) :: refusal
        integer, intent(in) :: place, word

        next = untouched
        written = firrozka_read_archive(busy_archive(place, word), firrozka_archive_bytes, next, firrozka_sheet_bytes)
        call same([written%refusal, written%bytes, count(next /= untouched, kind=c_int32_t)], [integer :: refusal, 0, 0])
    end subroutine

    ! Nodes 0 and 2 help node 1, which is the root, and nodes 3 and 4 help node 0: node 1's family is even and node 0's odd. In step
    ! J's plan no node helps.
    subroutine check_groups
        integer(c_int8_t) :: tree(52), groups(firrozka_groups_bytes), expected(44)

        tree = words_to_bytes([5, 2, 36, 1, 1, 1, 0, 0, 20, 0, 15, 12, 9])
        expected = words_to_bytes([5, 1, 1, 1, 64, 64, 0, 64, 64, 0, 0])
        groups = untouched
        written = firrozka_groups(tree, size(tree, kind=c_size_t), groups, size(groups, kind=c_size_t))
        call same([written%refusal, written%bytes], [0, 44])
        call same([count(groups(:44) /= expected, kind=c_int32_t), count(groups(45:) /= untouched, kind=c_int32_t)], [0, 0])
        ! A buffer of just this length.
        written = firrozka_groups(tree, size(tree, kind=c_size_t), groups, 44_c_size_t)
        call same([written%refusal, written%bytes], [0, 44])
        written = firrozka_groups(roots, size(roots, kind=c_size_t), groups, firrozka_groups_bytes)
        call same([written%refusal, written%bytes, word_at(groups, 1)], [integer :: 0, 28, firrozka_no_group])
        call same([count(groups(:28) /= words_to_bytes([3, 64, 64, 64, 64, 64, 64]), kind=c_int32_t)], [0])

        ! The plan's come before 57.
        groups = untouched
        written = firrozka_groups(tree, 51_c_size_t, groups, 43_c_size_t)
        call same([written%refusal, written%bytes], [integer :: firrozka_plan_length, 0])
        written = firrozka_groups(tree, size(tree, kind=c_size_t), groups, 43_c_size_t)
        call same([written%refusal, written%bytes], [integer :: firrozka_groups_buffer, 0])
        call same([count(groups /= untouched, kind=c_int32_t)], [0])
    end subroutine

    ! Step H with its chain: nodes 0, 1 and 2 hold 28, 72 and 0 particles of their own subdomains. Node 2 can spare 36, so that of
    ! node 1's 72 particles 36 stay; node 1 can spare none.
    subroutine check_tally
        type(firrozka_running_tally) :: tally

        call same([int(c_sizeof(tally%now), c_int32_t)], [17164])
        tally%now%counts = untouched
        call check_tallied(tally%open(h, chain), firrozka_accepted, .true.)
        call same([tally%now%n, tally%now%limit, tally%now%helpands(:3)], [3, 36, 0, 0, 1, 0])
        call check_now(tally%now, [28, 72, 0], [28, 36, 0])
        call same([tally%now%counts(0), tally%now%counts(65), sum(tally%now%counts)], [28, 72, 100])
        ! A particle of subdomain 2 at node 0: node 2 spares one fewer, and node 1 keeps one more than the limit.
        call check_tallied(tally%add(0, 2, 1), firrozka_accepted, .false.)
        call check_now(tally%now, [28, 72, 1], [28, 37, 1])
        call check_tallied(tally%remove(0, 2, 1), firrozka_accepted, .true.)
        call check_now(tally%now, [28, 72, 0], [28, 36, 0])
        ! With 10 fewer of its own node 1 can spare 10, which node 0 need not keep; that they are held elsewhere plays no part.
        call check_tallied(firrozka_tally_remove(tally%now, 1_c_int32_t, 1_c_int32_t, 10_c_int32_t), firrozka_accepted, .true.)
        call check_now(tally%now, [28, 62, 0], [18, 26, 0])
        call check_tallied(firrozka_tally_add(tally%now, 2_c_int32_t, 1_c_int32_t, 10_c_int32_t), firrozka_accepted, .true.)
        call check_now(tally%now, [28, 72, 0], [28, 36, 0])
        call same([tally%now%counts(65), tally%now%counts(129)], [62, 10])
        ! The limit is the sheet's, not the plan's.
        call check_tallied(tally%open(h, words_to_bytes([3, 1, 9, 0, 0, 1, 0, 0, 0])), firrozka_accepted, .true.)
        call same([tally%now%limit], [36])
    end subroutine

    ! long has 8 bytes, of which the lowest 4 are those of 1.
    subroutine check_tally_refused
        integer(c_int64_t), parameter :: zero = 0, one = 1, long = 4294967297_c_int64_t
        type(firrozka_running_tally) :: tally

        call check_tallied(tally%open(h, chain), firrozka_accepted, .true.)
        ! 58 comes before 60 and 59.
        call check_tallied(tally%add(3, 0, 2000000000), firrozka_tally_cell, .false.)
        call check_tallied(tally%add(0, 0, 0), firrozka_tally_cell, .false.)
        call check_tallied(tally%remove(0, -1, 29), firrozka_tally_cell, .false.)
        call check_tallied(tally%remove(0, 0, 29), firrozka_tally_removes, .false.)
        ! The subdomain has 72, the cell none.
        call check_tallied(tally%remove(0, 1, 1), firrozka_tally_removes, .false.)
        call check_tallied(tally%add(0, 0, 999999901), firrozka_tally_total, .false.)
        call check_tallied(tally%add(zero, long, one), firrozka_tally_cell, .false.)
        call check_tallied(tally%add(zero, zero, long), firrozka_tally_total, .false.)
        call check_tallied(tally%remove(zero, zero, long), firrozka_tally_removes, .false.)
        call check_now(tally%now, [28, 72, 0], [28, 36, 0])
        call same([tally%now%counts(0), tally%now%counts(65), sum(tally%now%counts)], [28, 72, 100])
        call check_tallied(tally%remove(zero, zero, one), firrozka_accepted, .true.)
        call check_now(tally%now, [27, 72, 0], [27, 36, 0])
    end subroutine

    ! Nobody opened this tally. Nor can one be opened from too few bytes, from two nodes beside three, and from a plan of kind 0.
    subroutine check_not_opened
        type(firrozka_running_tally) :: tally

        call check_tallied(tally%add(0, 0, 1), firrozka_tally_cell, .false.)
        call check_zeros(firrozka_sheet_length, h(:27), none)
        call check_zeros(firrozka_plan_short, h, none)
        call check_zeros(firrozka_plan_nodes_differ, h, words_to_bytes([2, 2, 36, 0, 0, 0, 0]))
        call check_zeros(firrozka_plan_primary, h, roots)
    end subroutine

    ! Of this sheet and this plan no tally is opened. What was one has zeros everywhere, and refuses every call.
    subroutine check_zeros(refusal, sheet, plan)
        integer(c_int32_t), intent(in) :: refusal
        integer(c_int8_t), intent(in) :: sheet(:), plan(:)
        type(firrozka_running_tally) :: tally

        call check_tallied(tally%open(h, chain), firrozka_accepted, .true.)
        call check_tallied(tally%open(sheet, plan), refusal, .false.)
        call same([transfer(tally%now, [integer(c_int32_t) ::])], spread(0, 1, 4291))
        call check_tallied(tally%add(0, 0, 1), firrozka_tally_cell, .false.)
        call check_tallied(tally%remove(0, 0, 1), firrozka_tally_cell, .false.)
    end subroutine

    subroutine check_tallied(answer, refusal, holds)
        type(firrozka_tallied), intent(in) :: answer
        integer(c_int32_t), intent(in) :: refusal
        logical, intent(in) :: holds

        call same([answer%refusal, answer%holds], [integer :: refusal, merge(1, 0, holds)])
    end subroutine

    ! The totals and the leasts of three nodes.
    subroutine check_now(now, totals, leasts)
        type(firrozka_tally), intent(in) :: now
        integer, intent(in) :: totals(3), leasts(3)

        call same([now%total, now%totals(:3)], [sum(totals), totals, 0])
        call same([now%leasts(:3)], [leasts, 0])
    end subroutine

    ! Words of all four bytes, both ways, from integers of either size.
    subroutine check_words
        integer(c_int32_t), parameter :: short(3) = [integer(c_int32_t) :: 2147483647, 305419896, -2]
        integer(c_int64_t), parameter :: long(3) = [2147483647_c_int64_t, 305419896_c_int64_t, 4294967294_c_int64_t]

        call same([word_at(words_to_bytes(short), 1), word_at(words_to_bytes(short), 2)], [305419896, -2])
        call same([word_at(words_to_bytes(long), 1_c_int32_t), word_at(words_to_bytes(long), 2_c_int64_t)], [305419896, -2])
    end subroutine

    subroutine same(given, expected)
        integer(c_int32_t), intent(in) :: given(:)
        integer, intent(in) :: expected(:)

        if (size(given) == size(expected)) then
            if (all(given == expected)) return
        end if
        print '("given", *(1x, i0))', given
        print '("expected", *(1x, i0))', expected
        error stop 1
    end subroutine
end program
