/* What Linux's own kexec code needs around it, to load and to run lists over files: for scripts/lists-by-linux, which
   puts the lines of kernel/kexec_core.c and of arch/x86/kernel/relocate_kernel_64.S where they are named below.

       load MEMORY POOL SEGMENTS OUT plain|kept   loads segments; prints the head word, the control page, the swap page
       crash MEMORY FIRST LAST SEGMENTS OUT       loads segments of a crash kernel, whose area has these bytes
       run MEMORY OUT HEAD SWAP                   runs a head word's list; SWAP is an address, or 0 for a page apart

   The machine's memory is the pages from FIRST on, each at its own address, so that an address needs no translation.
   The allocator gives the pages of the pool in their order; a page that is given back is given next.

   SEGMENTS has the number of segments, then of each mem, memsz and bufsz, as 8 bytes each, and its bytes. */
#define _GNU_SOURCE
#include <stdio.h>
#include <stdlib.h>
#include <string.h>
#include <sys/mman.h>

enum { PAGE_SHIFT = 12, FIRST = 0x100, PAGES = 0x1000, MOST_FREE = 0x10000 };

#define PAGE_SIZE 4096UL
#define PAGE_MASK (~(PAGE_SIZE - 1))
#define ENOMEM 12
#define EFAULT 14
#define EINVAL 22
#define EADDRNOTAVAIL 99
#define MAXMEM (1UL << 46)
#define KEXEC_SOURCE_MEMORY_LIMIT (MAXMEM - 1)
#define KEXEC_DESTINATION_MEMORY_LIMIT (MAXMEM - 1)
#define KEXEC_CONTROL_MEMORY_LIMIT (MAXMEM - 1)
#define KEXEC_CRASH_CONTROL_MEMORY_LIMIT (MAXMEM - 1)
#define KEXEC_SEGMENT_MAX 16
#define KEXEC_TYPE_DEFAULT 0
#define KEXEC_TYPE_CRASH 1
#define GFP_KERNEL 0
#define GFP_HIGHUSER 0
#define KEXEC_CONTROL_MEMORY_GFP 0
#define __GFP_ZERO 1
#define __GFP_HIGHMEM 2
#define VM_MAP 0
#define PAGE_KERNEL 0
#define __user

typedef unsigned int gfp_t;
typedef unsigned long kimage_entry_t;

struct list_head {
    struct list_head *next, *prev;
};

struct page {
    struct list_head lru;
    void *mapping;
    unsigned long private;
};

struct resource {
    unsigned long start, end;
};

struct kexec_segment {
    union {
        unsigned char *buf;
        unsigned char *kbuf;
    };
    size_t bufsz;
    unsigned long mem;
    size_t memsz;
};

struct kimage {
    kimage_entry_t head;
    kimage_entry_t *entry, *last_entry;
    void *vmcoreinfo_data_copy;
    unsigned long nr_segments;
    struct kexec_segment segment[KEXEC_SEGMENT_MAX];
    struct list_head control_pages, dest_pages, unusable_pages;
    unsigned long control_page;
    unsigned int type, file_mode;
};

static struct page page_table[FIRST + PAGES];
static unsigned long pool[MOST_FREE]; /* the page that is given next is the last */
static size_t waiting;
static struct resource crashk_res;

static struct page *alloc_pages(gfp_t flags, unsigned int order) {
    (void)flags, (void)order;
    return waiting ? &page_table[pool[--waiting]] : NULL;
}

static void __free_pages(struct page *page, unsigned int order) {
    (void)order;
    pool[waiting++] = (unsigned long)(page - page_table);
}

static void INIT_LIST_HEAD(struct list_head *list) {
    list->next = list->prev = list;
}

static void list_add(struct list_head *added, struct list_head *head) {
    added->next = head->next;
    added->prev = head;
    head->next->prev = added;
    head->next = added;
}

static void list_del(struct list_head *gone) {
    gone->next->prev = gone->prev;
    gone->prev->next = gone->next;
}

/* a list's head is the first member of what it links, in struct page */
#define list_for_each_entry(pos, list, member) \
    for (pos = (void *)(list)->next; &pos->member != (list); pos = (void *)pos->member.next)
#define list_for_each_entry_safe(pos, after, list, member) \
    for (pos = (void *)(list)->next; after = (void *)pos->member.next, &pos->member != (list); pos = after)

#define page_to_boot_pfn(page) ((unsigned long)((page) - page_table))
#define boot_pfn_to_page(pfn) (&page_table[pfn])
#define pfn_to_page(pfn) (&page_table[pfn])
#define page_address(page) ((void *)(page_to_boot_pfn(page) << PAGE_SHIFT))
#define virt_to_boot_phys(at) ((unsigned long)(at))
#define boot_phys_to_virt(at) ((void *)(at))
#define phys_to_boot_phys(at) (at)
#define page_private(page) ((page)->private)
#define set_page_private(page, value) ((page)->private = (value))
#define SetPageReserved(page) ((void)(page))
#define ClearPageReserved(page) ((void)(page))
#define PageHighMem(page) 0
#define arch_kexec_post_alloc_pages(at, count, flags) ((void)(at))
#define arch_kexec_pre_free_pages(at, count) ((void)(at))
#define kexec_flush_icache_page(page) ((void)(page))
#define clear_page(at) memset(at, 0, PAGE_SIZE)
#define clear_highpage(page) clear_page(page_address(page))
#define copy_highpage(to, from) memcpy(page_address(to), page_address(from), PAGE_SIZE)
#define kmap_local_page(page) page_address(page)
#define kunmap_local(at) ((void)(at))
#define copy_from_user(to, from, count) (memcpy(to, from, count), 0)
#define min(a, b) ((a) < (b) ? (a) : (b))
#define min_t(type, a, b) min((type)(a), (type)(b))
#define cond_resched() ((void)0)
#define current 0
#define fatal_signal_pending(task) 0
#define totalram_pages() (1UL << 34)
#define kzalloc(size, flags) calloc(1, size)
#define kfree(at) free(at)
#define pr_warn(...) ((void)0)
#define vmap(...) NULL
#define vunmap(at) ((void)(at))
#define crash_update_vmcoreinfo_safecopy(at) ((void)(at))
#define machine_kexec_cleanup(image) ((void)(image))
#define kimage_file_post_load_cleanup(image) ((void)(image))

#include "kexec_core.h" /* of include/linux/kexec.h the IND_ flags, of kernel/kexec_core.c the kimage_ functions */

extern void swap_pages(void); /* of relocate_kernel_64.S: the head word in rdi, the swap page in r10 */

static void fail(const char *what) {
    fprintf(stderr, "%s\n", what);
    exit(2);
}

static FILE *open_file(const char *name, const char *how) {
    FILE *file = fopen(name, how);
    if (!file)
        fail(name);
    return file;
}

static unsigned long read_number(FILE *file) {
    unsigned long number;
    if (fread(&number, 8, 1, file) != 1)
        fail("a file ends within a number");
    return number;
}

/* Reads a memory file into the machine's memory, which is zeros before. */
static void read_memory(const char *name) {
    void *start = (void *)((unsigned long)FIRST << PAGE_SHIFT);
    if (mmap(start, (size_t)PAGES << PAGE_SHIFT, PROT_READ | PROT_WRITE,
             MAP_PRIVATE | MAP_ANONYMOUS | MAP_FIXED_NOREPLACE, -1, 0) != start)
        fail("the machine's memory has no place");
    FILE *file = open_file(name, "rb");
    read_number(file);
    for (unsigned long count = read_number(file); count > 0; count--) {
        unsigned long page = read_number(file);
        if (page < FIRST || page >= FIRST + PAGES || fread((void *)(page << PAGE_SHIFT), PAGE_SIZE, 1, file) != 1)
            fail(name);
    }
    fclose(file);
}

/* Writes the pages that are not all zeros. */
static void write_memory(const char *name) {
    static const char zeros[PAGE_SIZE];
    FILE *file = open_file(name, "wb");
    unsigned long count = 0;
    fwrite("KXMEM001\0\0\0\0\0\0\0\0", 16, 1, file);
    for (unsigned long page = FIRST; page < FIRST + PAGES; page++)
        if (memcmp((void *)(page << PAGE_SHIFT), zeros, PAGE_SIZE)) {
            fwrite(&page, 8, 1, file);
            fwrite((void *)(page << PAGE_SHIFT), PAGE_SIZE, 1, file);
            count++;
        }
    fseek(file, 8, SEEK_SET);
    fwrite(&count, 8, 1, file);
    if (fclose(file))
        fail(name);
}

/* Reads the pages of a pool, one a line, and turns them round. */
static void read_pool(const char *name) {
    FILE *file = open_file(name, "r");
    while (waiting < MOST_FREE && fscanf(file, "%lx", &pool[waiting]) == 1)
        waiting++;
    fclose(file);
    for (size_t i = 0; i < waiting / 2; i++) {
        unsigned long page = pool[i];
        pool[i] = pool[waiting - 1 - i];
        pool[waiting - 1 - i] = page;
    }
}

static void read_segments(const char *name, struct kimage *image) {
    FILE *file = open_file(name, "rb");
    image->nr_segments = read_number(file);
    for (unsigned long i = 0; i < image->nr_segments; i++) {
        struct kexec_segment *segment = &image->segment[i];
        segment->mem = read_number(file);
        segment->memsz = read_number(file);
        segment->bufsz = read_number(file);
        segment->buf = malloc(segment->bufsz + 1);
        if (fread(segment->buf, 1, segment->bufsz, file) != segment->bufsz)
            fail(name);
    }
    fclose(file);
}

static void load_segments(struct kimage *image) {
    for (unsigned long i = 0; i < image->nr_segments; i++)
        if (kimage_load_segment(image, &image->segment[i]))
            fail("no pages");
    kimage_terminate(image);
}

static unsigned long control_page(struct kimage *image) {
    struct page *page = kimage_alloc_control_pages(image, 0);
    if (!page)
        fail("no pages");
    return page_to_boot_pfn(page) << PAGE_SHIFT;
}

/* As kexec_load(2) does, with a control page of one page and no page tables in it. */
static void load(char **words) {
    struct kimage *image = do_kimage_alloc_init();
    read_memory(words[0]);
    read_pool(words[1]);
    read_segments(words[2], image);
    if (sanity_check_segment_list(image))
        fail("bad segments");
    unsigned long control = control_page(image);
    unsigned long swap = strcmp(words[4], "kept") ? 0 : control_page(image);
    load_segments(image);
    printf("%lx %lx %lx\n", image->head, control, swap);
    write_memory(words[3]);
}

/* As kexec_load(2) with KEXEC_ON_CRASH does, without the pages beside the segments. */
static void crash(char **words) {
    struct kimage *image = do_kimage_alloc_init();
    image->type = KEXEC_TYPE_CRASH;
    crashk_res.start = strtoul(words[1], 0, 16);
    crashk_res.end = strtoul(words[2], 0, 16);
    read_memory(words[0]);
    read_segments(words[3], image);
    if (sanity_check_segment_list(image))
        fail("bad segments");
    load_segments(image);
    printf("%lx\n", image->head);
    write_memory(words[4]);
}

static void run(char **words) {
    static char apart[PAGE_SIZE] __attribute__((aligned(4096)));
    read_memory(words[0]);
    unsigned long head = strtoul(words[2], 0, 16), swap = strtoul(words[3], 0, 16);
    register unsigned long page asm("r10") = swap ? swap : (unsigned long)apart;
    asm volatile("call swap_pages"
                 : "+D"(head), "+r"(page)
                 :
                 : "rax", "rbx", "rcx", "rdx", "rsi", "memory", "cc");
    write_memory(words[1]);
}

int main(int count, char **words) {
    if (count == 7 && !strcmp(words[1], "load"))
        load(words + 2);
    else if (count == 7 && !strcmp(words[1], "crash"))
        crash(words + 2);
    else if (count == 6 && !strcmp(words[1], "run"))
        run(words + 2);
    else
        fail("the words are not those of load, crash or run");
    return 0;
}
