/* What the forms of capture files share, and what each of them has. A fault is kept in the file's input. */
#ifndef CAPTURE_FILE_FORMATS_H
#define CAPTURE_FILE_FORMATS_H

#include "capture_file.h"

enum { MOST_CAPTURED = 262144 };

/* One more interface, of the usual resolution; NULL where memory is out. */
struct file_interface *add_interface(struct capture_file *file);

bool is_interface_read(const struct capture_file *file, uint32_t number);

/* Whether an interface has what its frames need. */
bool judge_interface(struct capture_file *file, uint32_t number);

/* Whether check sequences have a length that is read. */
bool judge_check_sequence(struct capture_file *file, unsigned len);

/* Classic captures (draft-ietf-opsawg-pcap): whether a file begins as one, its head, and its next frame. */
bool is_pcap(struct capture_file *file);
bool open_pcap(struct capture_file *file);
enum reading next_pcap_frame(struct capture_file *file, struct file_frame *frame);

/* pcapng (draft-ietf-opsawg-pcapng): the same. */
bool is_pcapng(struct capture_file *file);
enum reading next_pcapng_frame(struct capture_file *file, struct file_frame *frame);

#endif
