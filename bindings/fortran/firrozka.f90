! Firrozka for Fortran 2008: interfaces of the functions in include/firrozka.h, which says what each does.
!
! Every kind is named, so the module serves programs with default integers of 4 bytes and of 8 (-fdefault-integer-8) alike.
! A record is an array of bytes, integer(c_int8_t), and its length in bytes. Its words are low byte first; words_to_bytes and
! word_at go both ways on any machine. Fortran has no unsigned integers: in an accepted record every word is below 2**31, so none
! is negative. The traffic page is text: its buffer is a character variable, and its length that of the variable. Buffers and
! records do not overlap. A tally is a variable of type firrozka_running_tally, whose calls are its methods.
module firrozka
    use, intrinsic :: iso_c_binding, only: c_char, c_int8_t, c_int32_t, c_int64_t, c_size_t
    implicit none
    private

    public :: firrozka_version
    public :: firrozka_read_sheet, firrozka_read_plan, firrozka_read_moves
    public :: firrozka_weigh, firrozka_plan_step, firrozka_carry_out, firrozka_join_sheets
    public :: firrozka_traffic_page, firrozka_write_archive, firrozka_read_archive, firrozka_groups, firrozka_tree_in_force
    public :: firrozka_open_tally, firrozka_tally_add, firrozka_tally_remove
    public :: words_to_bytes, word_at

    ! The version that this module was written for, 100 × major + minor: 1.9 is 109. firrozka_version() is the library's own.
    integer(c_int32_t), parameter, public :: firrozka_module_version = 109

    ! Buffers of so many bytes are long enough for every call. firrozka_archive_bytes is the length of every archive.
    integer(c_size_t), parameter, public :: &
        firrozka_sheet_bytes = 32780, firrozka_plan_bytes = 524, firrozka_moves_bytes = 32264, firrozka_least_bytes = 256, &
        firrozka_page_bytes = 1625, firrozka_archive_bytes = 16392, firrozka_groups_bytes = 516

    ! The kind of a plan.
    integer(c_int32_t), parameter, public :: firrozka_primary = 0, firrozka_kept = 1, firrozka_rebuilt = 2

    ! Which of two plans has the tree in force.
    integer(c_int32_t), parameter, public :: firrozka_old_plan = 1, firrozka_new_plan = 2

    ! The entry of a node that is in no group of a colour.
    integer(c_int32_t), parameter, public :: firrozka_no_group = 64

    ! Why an operation refuses. Its checks run in the order of its numbers, those of the sheet and of the other record first; only
    ! join sheets has a 7 behind 51, and read archive 2 and 3 behind 54.
    integer(c_int32_t), parameter, public :: &
        firrozka_accepted = 0, &
        ! sheet
        firrozka_sheet_short = 1, &     ! under 12 bytes
        firrozka_sheet_nodes = 2, &     ! N is not 1 to 64
        firrozka_sheet_tolerance = 3, & ! t is not 1 to 999
        firrozka_sheet_entries = 4, &   ! E is above N × N
        firrozka_sheet_length = 5, &    ! the length is not 4 × (3 + 2E) bytes
        firrozka_sheet_cell = 6, &      ! a cell does not rise, or names a node not below N
        firrozka_sheet_count = 7, &     ! a count is 0, or the running sum is above 1,000,000,000
        ! plan
        firrozka_plan_short = 11, &   ! under 12 bytes
        firrozka_plan_nodes = 12, &   ! N is not 1 to 64
        firrozka_plan_kind = 13, &    ! the kind is above 2, or not 0 with one node
        firrozka_plan_limit = 14, &   ! the limit is above 1,999,000,000
        firrozka_plan_length = 15, &  ! the length is not 4 × (3 + 2N) bytes
        firrozka_plan_helpand = 16, & ! a helpand is not below N
        firrozka_plan_shape = 17, &   ! the wrong shape: kind 0 has only roots; kinds 1 and 2 have one root,
                                      ! which every chain of helpands reaches
        firrozka_plan_share = 18, &   ! a share is above the limit, or not 0 at a root
        ! weigh, plan a step; 21 and 24 also open tally
        firrozka_plan_nodes_differ = 21, & ! the N of sheet and plan differ
        firrozka_plan_buffer = 22, &       ! the plan's buffer is too short
        firrozka_moves_buffer = 23, &      ! the moves' buffer is too short
        firrozka_plan_primary = 24, &      ! the plan is kind 0 and has no tree
        firrozka_least_buffer = 25, &      ! the buffer is under 4N bytes
        ! moves
        firrozka_moves_short = 31, &   ! under 8 bytes
        firrozka_moves_nodes = 32, &   ! N is not 1 to 64
        firrozka_moves_entries = 33, & ! E is above N × (N−1)
        firrozka_moves_length = 34, &  ! the length is not 4 × (2 + 2E) bytes
        firrozka_moves_route = 35, &   ! a route does not rise, names a node not below N, or has one node as sender and receiver
        firrozka_moves_count = 36, &   ! a count is 0 or above 1,000,000,000
        ! carry out; 41 and 42 also traffic page
        firrozka_moves_nodes_differ = 41, & ! the N of sheet and moves differ
        firrozka_moves_sends = 42, &        ! some cell sends in all more than the old sheet gives it
        firrozka_sheet_buffer = 43, &       ! the buffer is too short
        ! join sheets
        firrozka_sheets_differ = 51, & ! the N or the t of the two sheets differ
        firrozka_joined_buffer = 52, & ! the buffer is too short
        ! traffic page
        firrozka_page_buffer = 53, & ! the buffer is under 25 × (N+1) bytes
        ! archive, which also has a sheet's 2 and 3
        firrozka_archive_length = 54, & ! the length is not 16,392 bytes
        firrozka_archive_count = 55, &  ! a count is above 0 at a node not below N, or the sum is above 1,000,000,000
        ! write archive, read archive
        firrozka_archive_buffer = 56, & ! the buffer is too short
        ! groups
        firrozka_groups_buffer = 57, & ! the buffer is under 4 × (1 + 2N) bytes
        ! tally add, tally remove
        firrozka_tally_cell = 58, &    ! a node is not below N, or the count is 0
        firrozka_tally_removes = 59, & ! the cell has fewer than are removed
        firrozka_tally_total = 60      ! the total would be above 1,000,000,000

    ! The answers: 0 or a refusal number, and the values named, all 0 in a refusal. The tolerance t is in tenths of a percent.
    type, bind(c), public :: firrozka_sheet
        integer(c_int32_t) :: refusal, n, t, e, p, limit
    end type

    type, bind(c), public :: firrozka_plan
        integer(c_int32_t) :: refusal, n, kind, limit
    end type

    type, bind(c), public :: firrozka_moves
        integer(c_int32_t) :: refusal, n, e
    end type

    type, bind(c), public :: firrozka_weighed
        integer(c_int32_t) :: refusal, holds
    end type

    type, bind(c), public :: firrozka_step
        integer(c_int32_t) :: refusal, kind, limit, plan_bytes, moves_bytes
    end type

    type, bind(c), public :: firrozka_written
        integer(c_int32_t) :: refusal, bytes
    end type

    type, bind(c), public :: firrozka_tallied
        integer(c_int32_t) :: refusal, holds
    end type

    ! A tally as the library has it. Nodes are counted from 0, and a cell is holder * 64 + subdomain.
    type, bind(c), public :: firrozka_tally
        integer(c_int32_t) :: n = 0, limit = 0, total = 0
        integer(c_int32_t) :: helpands(0:63) = 0, totals(0:63) = 0, leasts(0:63) = 0
        integer(c_int32_t) :: counts(0:4095) = 0
    end type

    ! The same with its calls as methods, which a bind(c) type cannot have: answer = tally%open(sheet, plan), and then
    ! answer = tally%add(holder, subdomain, count). The three numbers are of one kind, of 4 bytes or of 8. What it is now, is read in
    ! tally%now, and left to the methods to write.
    type, public :: firrozka_running_tally
        type(firrozka_tally) :: now
    contains
        procedure :: open => open_running
        generic :: add => add32, add64
        generic :: remove => remove32, remove64
        procedure, private :: add32, add64, remove32, remove64
    end type

    ! The part begins start bytes behind the first of the plan that source names, so at index start + 1.
    type, bind(c), public :: firrozka_part
        integer(c_int32_t) :: source, start, length
    end type

    ! The bytes of these words, low byte first.
    interface words_to_bytes
        module procedure words32_to_bytes, words64_to_bytes
    end interface

    ! The word at a place; places are counted from 0, as in docs/FORMATS.md.
    interface word_at
        module procedure word_at32, word_at64
    end interface

    interface
        function firrozka_version() bind(c) result(version)
            import :: c_int32_t
            integer(c_int32_t) :: version
        end function

        function firrozka_read_sheet(sheet, sheet_len) bind(c) result(answer)
            import :: c_int8_t, c_size_t, firrozka_sheet
            integer(c_int8_t), intent(in) :: sheet(*)
            integer(c_size_t), value :: sheet_len
            type(firrozka_sheet) :: answer
        end function

        function firrozka_read_plan(plan, plan_len) bind(c) result(answer)
            import :: c_int8_t, c_size_t, firrozka_plan
            integer(c_int8_t), intent(in) :: plan(*)
            integer(c_size_t), value :: plan_len
            type(firrozka_plan) :: answer
        end function

        function firrozka_read_moves(moves, moves_len) bind(c) result(answer)
            import :: c_int8_t, c_size_t, firrozka_moves
            integer(c_int8_t), intent(in) :: moves(*)
            integer(c_size_t), value :: moves_len
            type(firrozka_moves) :: answer
        end function

        ! holds is 1 or 0.
        function firrozka_weigh(sheet, sheet_len, plan, plan_len, least, least_len) bind(c) result(answer)
            import :: c_int8_t, c_size_t, firrozka_weighed
            integer(c_int8_t), intent(in) :: sheet(*), plan(*)
            integer(c_int8_t), intent(inout) :: least(*)
            integer(c_size_t), value :: sheet_len, plan_len, least_len
            type(firrozka_weighed) :: answer
        end function

        ! An old plan of length 0 is none: pass any array, and old_len = 0.
        function firrozka_plan_step(sheet, sheet_len, old_plan, old_len, plan, plan_len, moves, moves_len) bind(c) result(answer)
            import :: c_int8_t, c_size_t, firrozka_step
            integer(c_int8_t), intent(in) :: sheet(*), old_plan(*)
            integer(c_int8_t), intent(inout) :: plan(*), moves(*)
            integer(c_size_t), value :: sheet_len, old_len, plan_len, moves_len
            type(firrozka_step) :: answer
        end function

        function firrozka_carry_out(sheet, sheet_len, moves, moves_len, next, next_len) bind(c) result(answer)
            import :: c_int8_t, c_size_t, firrozka_written
            integer(c_int8_t), intent(in) :: sheet(*), moves(*)
            integer(c_int8_t), intent(inout) :: next(*)
            integer(c_size_t), value :: sheet_len, moves_len, next_len
            type(firrozka_written) :: answer
        end function

        ! 1 to 7 may be either sheet's, and 7 also that of the joint total.
        function firrozka_join_sheets(first, first_len, second, second_len, out, out_len) bind(c) result(answer)
            import :: c_int8_t, c_size_t, firrozka_written
            integer(c_int8_t), intent(in) :: first(*), second(*)
            integer(c_int8_t), intent(inout) :: out(*)
            integer(c_size_t), value :: first_len, second_len, out_len
            type(firrozka_written) :: answer
        end function

        ! Each line has 25 characters, and the last of them is achar(10).
        function firrozka_traffic_page(sheet, sheet_len, moves, moves_len, page, page_len) bind(c) result(answer)
            import :: c_char, c_int8_t, c_size_t, firrozka_written
            integer(c_int8_t), intent(in) :: sheet(*), moves(*)
            character(kind=c_char), intent(inout) :: page(*)
            integer(c_size_t), value :: sheet_len, moves_len, page_len
            type(firrozka_written) :: answer
        end function

        ! Every archive has firrozka_archive_bytes.
        function firrozka_write_archive(sheet, sheet_len, archive, archive_len) bind(c) result(answer)
            import :: c_int8_t, c_size_t, firrozka_written
            integer(c_int8_t), intent(in) :: sheet(*)
            integer(c_int8_t), intent(inout) :: archive(*)
            integer(c_size_t), value :: sheet_len, archive_len
            type(firrozka_written) :: answer
        end function

        ! 2 and 3 are here of the archive.
        function firrozka_read_archive(archive, archive_len, sheet, sheet_len) bind(c) result(answer)
            import :: c_int8_t, c_size_t, firrozka_written
            integer(c_int8_t), intent(in) :: archive(*)
            integer(c_int8_t), intent(inout) :: sheet(*)
            integer(c_size_t), value :: archive_len, sheet_len
            type(firrozka_written) :: answer
        end function

        ! The words are N, N entries of the even colour and N of the odd. An entry is the number of the group's owner, or
        ! firrozka_no_group.
        function firrozka_groups(plan, plan_len, groups, groups_len) bind(c) result(answer)
            import :: c_int8_t, c_size_t, firrozka_written
            integer(c_int8_t), intent(in) :: plan(*)
            integer(c_int8_t), intent(inout) :: groups(*)
            integer(c_size_t), value :: plan_len, groups_len
            type(firrozka_written) :: answer
        end function

        ! holds is 1 or 0. A tally that cannot be opened has zeros everywhere.
        function firrozka_open_tally(sheet, sheet_len, plan, plan_len, tally) bind(c) result(answer)
            import :: c_int8_t, c_size_t, firrozka_tally, firrozka_tallied
            integer(c_int8_t), intent(in) :: sheet(*), plan(*)
            integer(c_size_t), value :: sheet_len, plan_len
            type(firrozka_tally), intent(inout) :: tally
            type(firrozka_tallied) :: answer
        end function

        ! A call that is refused leaves the tally as it was.
        function firrozka_tally_add(tally, holder, subdomain, count) bind(c) result(answer)
            import :: c_int32_t, firrozka_tally, firrozka_tallied
            type(firrozka_tally), intent(inout) :: tally
            integer(c_int32_t), value :: holder, subdomain, count
            type(firrozka_tallied) :: answer
        end function

        function firrozka_tally_remove(tally, holder, subdomain, count) bind(c) result(answer)
            import :: c_int32_t, firrozka_tally, firrozka_tallied
            type(firrozka_tally), intent(inout) :: tally
            integer(c_int32_t), value :: holder, subdomain, count
            type(firrozka_tallied) :: answer
        end function

        ! A new plan of kind 0 gives its roots. old_len = 0 gives length 0; only plan a step takes it as no plan.
        function firrozka_tree_in_force(old_plan, old_len, new_plan, new_len) bind(c) result(answer)
            import :: c_int8_t, c_size_t, firrozka_part
            integer(c_int8_t), intent(in) :: old_plan(*), new_plan(*)
            integer(c_size_t), value :: old_len, new_len
            type(firrozka_part) :: answer
        end function
    end interface

contains

    pure function words32_to_bytes(words) result(bytes)
        integer(c_int32_t), intent(in) :: words(:)
        integer(c_int8_t) :: bytes(4 * size(words))

        bytes = words64_to_bytes(int(words, c_int64_t))
    end function

    ! Words are 0 to 2**32 - 1; of any other number these are the lowest 32 bits.
    pure function words64_to_bytes(words) result(bytes)
        integer(c_int64_t), intent(in) :: words(:)
        integer(c_int8_t) :: bytes(4 * size(words))
        integer :: k

        do k = 1, size(bytes)
            bytes(k) = byte_of(words((k + 3) / 4), mod(k - 1, 4))
        end do
    end function

    ! Byte 0 to 3 of a word; 128 to 255 are the negative bytes.
    pure function byte_of(word, place) result(byte)
        integer(c_int64_t), intent(in) :: word
        integer, intent(in) :: place
        integer(c_int8_t) :: byte
        integer(c_int64_t) :: bits

        bits = ibits(word, 8 * place, 8)
        byte = int(merge(bits - 256_c_int64_t, bits, bits > 127), c_int8_t)
    end function

    pure function word_at32(bytes, place) result(word)
        integer(c_int8_t), intent(in) :: bytes(:)
        integer(c_int32_t), intent(in) :: place
        integer(c_int32_t) :: word

        word = word_at64(bytes, int(place, c_int64_t))
    end function

    pure function word_at64(bytes, place) result(word)
        integer(c_int8_t), intent(in) :: bytes(:)
        integer(c_int64_t), intent(in) :: place
        integer(c_int32_t) :: word
        integer :: k

        word = 0
        do k = 3, 0, -1
            word = ior(ishft(word, 8), iand(int(bytes(4 * place + k + 1), c_int32_t), 255_c_int32_t))
        end do
    end function

    function open_running(self, sheet, plan) result(answer)
        class(firrozka_running_tally), intent(inout) :: self
        integer(c_int8_t), intent(in) :: sheet(:), plan(:)
        type(firrozka_tallied) :: answer

        answer = firrozka_open_tally(sheet, size(sheet, kind=c_size_t), plan, size(plan, kind=c_size_t), self%now)
    end function

    function add32(self, holder, subdomain, count) result(answer)
        class(firrozka_running_tally), intent(inout) :: self
        integer(c_int32_t), intent(in) :: holder, subdomain, count
        type(firrozka_tallied) :: answer

        answer = firrozka_tally_add(self%now, holder, subdomain, count)
    end function

    function add64(self, holder, subdomain, count) result(answer)
        class(firrozka_running_tally), intent(inout) :: self
        integer(c_int64_t), intent(in) :: holder, subdomain, count
        type(firrozka_tallied) :: answer

        answer = self%add32(argument(holder), argument(subdomain), argument(count))
    end function

    function remove32(self, holder, subdomain, count) result(answer)
        class(firrozka_running_tally), intent(inout) :: self
        integer(c_int32_t), intent(in) :: holder, subdomain, count
        type(firrozka_tallied) :: answer

        answer = firrozka_tally_remove(self%now, holder, subdomain, count)
    end function

    function remove64(self, holder, subdomain, count) result(answer)
        class(firrozka_running_tally), intent(inout) :: self
        integer(c_int64_t), intent(in) :: holder, subdomain, count
        type(firrozka_tallied) :: answer

        answer = self%remove32(argument(holder), argument(subdomain), argument(count))
    end function

    ! A number for a call. One that 31 bits do not hold becomes -1, which the library takes for 4,294,967,295 and refuses as it would
    ! refuse the number: its lowest 32 bits could be a small one.
    pure function argument(number) result(word)
        integer(c_int64_t), intent(in) :: number
        integer(c_int32_t) :: word

        word = -1
        if (number >= 0 .and. number <= huge(word)) word = int(number, c_int32_t)
    end function
end module
