// Prints the listing of the image in standard input.
#include <bootimg.h>
#include <iostream>
#include <iterator>
#include <vector>
int main()
{
    std::vector<char> file{std::istreambuf_iterator<char>(std::cin), {}};
    std::vector<uint8_t> text(100000);
    bootimg_result answer;
    auto bytes = reinterpret_cast<const uint8_t *>(file.data());
    auto status = bootimg_list(bytes, file.size(), BOOTIMG_LIMIT, BOOTIMG_DEPTH, text.data(), text.size(), &answer);
    std::cout.write(reinterpret_cast<char *>(text.data()), answer.size);
    return status == BOOTIMG_OK ? 0 : 2;
}
