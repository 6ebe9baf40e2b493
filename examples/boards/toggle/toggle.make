root main from main
serve debounce by debounce
pulses none
