#include <stdint.h>
#include <stddef.h>
typedef struct {uint64_t a,b,c;} R;
uint32_t eikelzwier_version(void){return 800;}
R eikelzwier_command_with_journal(void){R r={0,0,0};return r;}
R eikelzwier_recover(void){R r={0,0,0};return r;}
