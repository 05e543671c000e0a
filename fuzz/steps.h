/* The inputs of the fuzz test. An input is a row of steps of 64 bytes; zeros are put after a cut last one.

   The steps work on five buffers. These begin sound: exact lengths, an empty small drive of four blocks, its vector, a
   fresh list with capacity 8 and limits 4, FCB and DMA zeros. Numbers take four bytes, low byte first.

   byte  what
   0     what to do, modulo 8: 0 length, 1 and 2 patch, the others call
   call
   1     the flags below; without a WILD the number is brought to a good one, without KEEP_VECTOR the vector is first
         built for the kind that is told, in its length
   2     the kind that is told with WILD_KIND, two bytes; else it is the drive's, with OTHER_KIND the one that it is not
   4     function     8     process     12    count
   16    the FCB's first 36 bytes, and from 52 on the DMA's first 12, put before the call
   patch, which puts bytes into a buffer
   1     the buffer, modulo 5
   2     how many bytes, modulo 49     3     which of them is one more each time; none of them where it is too great
   4     where to, modulo the length     8     how often, one after the other; 0 and 1 once
   16    the bytes
   length, which cuts or lengthens a buffer
   1     the buffer, modulo 5
   2     flags; with RAW to the number at 4, else to the exact length, the image to so many blocks; both modulo a number
         that MANY chooses; without MANY a large drive has so many blocks more than the fewest
   3     the kind that the drive is from then on, modulo 2, where the buffer is the image */
#ifndef STEPS_H
#define STEPS_H

enum { FCB, DMA, LIST, IMAGE, VECTOR, BUFFERS }; /* the buffers */

enum { STEP_LEN = 64, CONTENT = 16, CONTENT_LEN = 48 };
enum { LENGTH = 0, PATCH = 1, CALL = 3 }; /* what to do, as seeds give it */
enum { WILD_FUNCTION = 1, WILD_PROCESS = 2, WILD_COUNT = 4, KEEP_FCB = 8, KEEP_DMA = 16 };
enum { OTHER_KIND = 32, WILD_KIND = 64, KEEP_VECTOR = 128 };
enum { FCB_GIVEN = 36, DMA_GIVEN = CONTENT_LEN - FCB_GIVEN };
enum { RAW = 1, MANY = 2 };
enum { FEW_BLOCKS = 20, FEW_LENGTHS = 5000 };
enum { MANY_SMALL_BLOCKS = 258, MANY_SMALL_LENGTHS = 258 * 1024 };
enum { MANY_LARGE_BLOCKS = 4098, MANY_LARGE_LENGTHS = 258 * 2048 };

#endif
