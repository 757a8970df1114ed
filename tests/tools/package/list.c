/* Prints the listing of the image in standard input. */
#include <bootimg.h>
#include <stdio.h>
static uint8_t file[1000000], text[100000];
int main(void)
{
    bootimg_result answer;
    size_t size = fread(file, 1, sizeof file, stdin);
    if (bootimg_list(file, size, BOOTIMG_LIMIT, BOOTIMG_DEPTH, text, sizeof text, &answer) != BOOTIMG_OK)
        return 2;
    return fwrite(text, 1, answer.size, stdout) != answer.size;
}
