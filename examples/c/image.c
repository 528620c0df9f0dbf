/*
 * An image at an odd address, loaded by runs over an open target and read back; and one that passes the end of the
 * memory, whose bytes before that end are done.
 */
#include <stdio.h>
#include <string.h>
#include "board.h"
#include "image.h"
#include "line.h"

enum { WORDS = 64, SIZE = 1000 };

/* Some bytes of an image: their first word, the byte in it where they begin, and how many they are. */
struct piece {
	uint32_t first;
	size_t begin, size, words;
};

static struct piece piece_at(uint32_t addr, size_t left)
{
	struct piece piece;
	piece.first = addr & ~(uint32_t)3;
	piece.begin = addr & 3;
	piece.size = left < 4 * WORDS - piece.begin ? left : 4 * WORDS - piece.begin;
	piece.words = (piece.begin + piece.size + 3) / 4;
	return piece;
}

/* How many bytes of a piece its first words have. */
static size_t bytes_in(const struct piece *piece, size_t words)
{
	size_t count = 4 * words < piece->begin ? 0 : 4 * words - piece->begin;
	return count < piece->size ? count : piece->size;
}

/* Does accesses over an open target. Gives how many are done, and notes why no more are. */
static size_t perform(const struct swd_access *accesses, size_t count, struct swd_outcome *answers, uint32_t tries,
                      struct image_end *end)
{
	struct swd_run run;
	struct swd_cue cue = swd_run_opened(&run, accesses, count, 1, tries);
	size_t done = 0;
	end->end = cue.outcome;
	if (cue.kind == SWD_REFUSED)
		return 0;
	line_run(&run, accesses, count, answers);
	end->end = run.end;
	while (done < run.answered && answers[done].kind != SWD_BUS_FAULT)
		done++;
	if (done < run.answered)
		end->answer = answers[done];
	return done;
}

/* Reads `count` words of a piece, from one on, into its bytes. Gives how many were read. */
static size_t read_words(const struct piece *piece, size_t from, size_t count, uint8_t *bytes, uint32_t tries,
                         struct image_end *end)
{
	struct swd_access accesses[WORDS];
	struct swd_outcome answers[WORDS];
	size_t i, done;
	for (i = 0; i < count; i++) {
		accesses[i].addr = piece->first + 4 * (uint32_t)(from + i);
		accesses[i].word = 0;
		accesses[i].write = 0;
	}
	done = perform(accesses, count, answers, tries, end);
	for (i = 0; i < 4 * done; i++)
		bytes[4 * from + i] = (uint8_t)(answers[i / 4].word >> 8 * (i % 4));
	return done;
}

/* Reads the words of a piece that have other bytes, too. Gives whether they were read. */
static bool read_ends(const struct piece *piece, uint8_t *bytes, uint32_t tries, struct image_end *end)
{
	size_t last = piece->words - 1;
	bool is_whole = piece->begin + piece->size == 4 * piece->words;
	if (piece->begin > 0 && read_words(piece, 0, 1, bytes, tries, end) != 1)
		return false;
	return is_whole || (last == 0 && piece->begin > 0) || read_words(piece, last, 1, bytes, tries, end) == 1;
}

/* Writes the words of a piece. Gives how many were written. */
static size_t write_words(const struct piece *piece, const uint8_t *bytes, uint32_t tries, struct image_end *end)
{
	struct swd_access accesses[WORDS];
	struct swd_outcome answers[WORDS];
	size_t i;
	for (i = 0; i < piece->words; i++) {
		const uint8_t *word = bytes + 4 * i;
		accesses[i].addr = piece->first + 4 * (uint32_t)i;
		accesses[i].word = word[0] | (uint32_t)word[1] << 8 | (uint32_t)word[2] << 16 | (uint32_t)word[3] << 24;
		accesses[i].write = 1;
	}
	return perform(accesses, piece->words, answers, tries, end);
}

bool image_load(uint32_t addr, const uint8_t *data, size_t size, uint32_t tries, struct image_end *end)
{
	memset(end, 0, sizeof *end);
	while (end->done < size) {
		struct piece piece = piece_at(addr + (uint32_t)end->done, size - end->done);
		uint8_t bytes[4 * WORDS];
		size_t words;
		if (!read_ends(&piece, bytes, tries, end))
			return false;
		memcpy(bytes + piece.begin, data + end->done, piece.size);
		words = write_words(&piece, bytes, tries, end);
		end->done += bytes_in(&piece, words);
		if (words < piece.words)
			return false;
	}
	return true;
}

bool image_dump(uint32_t addr, uint8_t *data, size_t size, uint32_t tries, struct image_end *end)
{
	memset(end, 0, sizeof *end);
	while (end->done < size) {
		struct piece piece = piece_at(addr + (uint32_t)end->done, size - end->done);
		uint8_t bytes[4 * WORDS];
		size_t words = read_words(&piece, 0, piece.words, bytes, tries, end);
		memcpy(data + end->done, bytes + piece.begin, bytes_in(&piece, words));
		end->done += bytes_in(&piece, words);
		if (words < piece.words)
			return false;
	}
	return true;
}

static struct board board;

int line_clock(int drive)
{
	return board_clock(&board, drive);
}

/* The byte at an address of the board. */
static uint8_t byte_at(uint32_t addr)
{
	return (uint8_t)(board.words[(addr - BOARD_BASE) / 4] >> 8 * (addr % 4));
}

int main(void)
{
	static uint8_t image[SIZE], found[SIZE];
	const uint32_t addr = BOARD_BASE + 1, edge = BOARD_BASE + 4 * BOARD_WORDS - 10;
	struct swd_outcome unused;
	struct swd_access none = { 0, 0, 0 };
	struct swd_run opening;
	struct image_end end;
	size_t i;
	bool good = true;
	board_new(&board);
	board.words[0] = 0x11111111;
	for (i = 0; i < SIZE; i++)
		image[i] = (uint8_t)(i * 7 + 1);
	swd_run_new(&opening, 8);
	if (line_run(&opening, &none, 0, &unused).outcome.kind != SWD_ALL)
		return 1;
	good = image_load(addr, image, SIZE, 8, &end) && end.done == SIZE;
	for (i = 0; i < SIZE; i++)
		good = byte_at(addr + (uint32_t)i) == image[i] && good;
	/* The bytes beside it are as they were. */
	good = byte_at(BOARD_BASE) == 0x11 && byte_at(addr + SIZE) == 0 && good;
	good = image_dump(addr, found, SIZE, 8, &end) && memcmp(image, found, SIZE) == 0 && good;
	printf("loaded and read %d bytes at %08lx\n", SIZE, (unsigned long)addr);
	good = !image_load(edge, image, SIZE, 8, &end) && end.done == 10 && end.answer.kind == SWD_BUS_FAULT && good;
	printf("at %08lx: %u bytes, then a %s\n", (unsigned long)edge, (unsigned)end.done,
	       swd_outcome_name(end.answer.kind));
	for (i = 0; i < 10; i++)
		good = byte_at(edge + (uint32_t)i) == image[i] && good;
	return good ? 0 : 1;
}
