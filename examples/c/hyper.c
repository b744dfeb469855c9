/* Prints what can be inferred after a run of the program in a file: `hyper lock.kf`. Ends as `kuifje hyper lock.kf` does. */
#include <kuifje_ask.h>
#include <stdio.h>

int main(int count, char **arguments)
{
    static char bytes[(1 << 20) + 1]; /* a file that fills it is too long, which is for the library to say */
    if (count != 2) {
        fputs("usage: hyper FILE\n", stderr);
        return KUIFJE_USAGE;
    }
    FILE *file = fopen(arguments[1], "rb");
    size_t length = file == NULL ? 0 : fread(bytes, 1, sizeof bytes, file);
    int is_read = file != NULL && !ferror(file);
    if (file != NULL)
        fclose(file);

    const char *words[] = {"kuifje", "hyper", arguments[1]};
    struct kuifje_named_file files[] = {{arguments[1], bytes, length}};
    struct kuifje_answer answer;
    int status = kuifje_ask(3, words, files, is_read ? 1 : 0, &answer); /* without the file the answer is that it can't be read */
    if (fwrite(answer.out, 1, answer.out_length, stdout) != answer.out_length || fflush(stdout) != 0) {
        fputs("kuifje: write failed\n", stderr);
        status = KUIFJE_WRITE_FAILED;
    }
    fwrite(answer.err, 1, answer.err_length, stderr);
    kuifje_free(&answer);
    return status;
}
