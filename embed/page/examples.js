// Outlines to begin with.

export const EXAMPLES = {
  "A film and its help": `excl id="lesson"
  priorityClass peers="pause"
    video id="film" begin="0s" src="media/film.webm" alt="The film"
    img id="help" begin="film.click;accesskey(h)" dur="3s" src="media/help.svg" alt="Help: the film waits"`,
  "Slides, captions and a tune": `par id="talk"
  audio id="tune" src="media/tune.webm" repeatCount="2" alt="A tune"
  seq id="slides"
    img id="harbour" dur="4s" src="media/harbour.svg" alt="The harbour"
    img id="cliff" dur="4s" src="media/cliff.svg" alt="The cliff"
    img id="night" dur="4s" fill="freeze" src="media/night.svg" alt="The night"
  text id="caption" begin="harbour.begin+1s" dur="3s" src="media/note.txt" alt="The harbour at noon"
  excl id="more" dur="indefinite" end="slides.end"
    text id="note" begin="cliff.click;accesskey(n)" dur="2s" alt="A note, for two seconds"`,
  "A loop of pictures": `seq id="loop" repeatCount="indefinite"
  img id="first" dur="2s" src="media/harbour.svg" alt="The harbour"
  img id="second" dur="2s" src="media/night.svg" alt="The night"`,
};
