#!/usr/bin/env python3
"""parts.py: makes sentences.txt, titles.txt and code.txt beside it, the lines of which the workloads put their texts together. It gives the same files each time."""
import os
import random

SENTENCES = {
    "en": """We left the harbour before dawn, and nobody saw us go.|The setting is read once, when the program starts, and never again.|If the file is missing, a new one is made with the usual values.|Each request takes a connection from the pool and puts it back when it is done.|The tide turns twice a day, so plan the way home before you plan the way out.|This page says how to install the tools and how to check that they work.|A change that breaks an old script is named in the notes of the version.|Most people need only the first two steps.|The lamp on the pier has been out since the storm in March.|It is safe to call this from more than one thread.|Nothing is written to the disk until the whole record has been read.|The crew sleeps in turns of four hours, and the cook sleeps when he can.|Older versions kept the index in memory, which took too much room.|When two rules fit, the one that was added last counts.|The boat draws two metres, so the inner channel is closed to her at low water.|You can leave this out if the default suits you.|The test fails on the third run about once in a hundred tries.|A reader who is in a hurry may pass over the next part.""",
    "de": """Wir liefen vor Sonnenaufgang aus, und niemand hat uns gesehen.|Die Größe des Puffers lässt sich später nicht mehr ändern.|Für jede Änderung gibt es eine kurze Erklärung im Verzeichnis „Neues“.|Über dem Hafen lag dichter Nebel, als wir zurückkehrten.|Wer die Prüfung überspringt, trägt die Folgen selbst.""",
    "fr": """Nous avons quitté le port avant l’aube, sans être vus de personne.|La valeur par défaut convient à la plupart des usages.|Chaque réponse est écrite d’un seul coup, même très longue.|L’équipage était déjà réveillé quand la pluie a cessé.|Où que vous soyez, l’aide s’affiche avec la touche F1.""",
    "es": """Salimos del puerto antes del amanecer y nadie nos vio.|¿Qué ocurre si el archivo ya existe? Se conserva el más nuevo.|El número de líneas no puede pasar de un millón.|Mañana habrá que revisar la vela mayor y el timón.""",
    "ru": """Мы вышли из гавани до рассвета, и никто нас не видел.|Настройки читаются один раз при запуске программы.|Если файл не найден, создаётся новый с обычными значениями.|Каждое изменение описано в журнале версий.|К вечеру ветер стих, и паруса пришлось убрать.""",
    "el": """Φύγαμε από το λιμάνι πριν την αυγή και κανείς δεν μας είδε.|Οι ρυθμίσεις διαβάζονται μία φορά, στην αρχή του προγράμματος.|Κάθε αλλαγή έχει μια σύντομη εξήγηση.""",
    "ja": """私たちは夜明け前に港を出た。誰にも見られなかった。|設定は起動時に一度だけ読み込まれます。|ファイルがない場合は、新しいファイルが作られます。|変更ごとに短い説明があります。|風が止んだので、帆を下ろした。""",
    "zh": """我们在黎明前离开了港口，没有人看见。|设置只在程序启动时读取一次。|如果文件不存在，就会创建一个新文件。|每次更改都有简短的说明。""",
    "ko": """우리는 새벽이 오기 전에 항구를 떠났고 아무도 보지 못했다.|설정은 프로그램을 시작할 때 한 번만 읽는다.|파일이 없으면 새 파일을 만든다.""",
    "ar": """غادرنا الميناء قبل الفجر ولم يرنا أحد.|تُقرأ الإعدادات مرة واحدة عند بدء البرنامج.|لكل تغيير شرح قصير.""",
    "hi": """हम भोर से पहले बंदरगाह से निकले और किसी ने हमें नहीं देखा।|सेटिंग केवल एक बार पढ़ी जाती है।|हर बदलाव का छोटा विवरण है।""",
    "pl": """Wyszliśmy z portu przed świtem i nikt nas nie widział.|Każda zmiana ma krótki opis, także ta najmniejsza.|Jeśli plik już istnieje, zostaje nowszy.""",
    "vi": """Chúng tôi rời cảng trước bình minh và không ai nhìn thấy.|Mỗi thay đổi đều có một lời giải thích ngắn.""",
    "he": """יצאנו מהנמל לפני עלות השחר ואיש לא ראה אותנו.|לכל שינוי יש הסבר קצר.""",
    "th": """เราออกจากท่าก่อนรุ่งสาง และไม่มีใครเห็น|การตั้งค่าจะถูกอ่านเพียงครั้งเดียว""",
    "emoji": """The build is green again 🎉 and the notes are out 🚢.|Thanks to everybody who wrote in 🙏, above all from Århus and Łódź.""",
}
ENGLISH = "boat sail rope anchor harbour wind tide chart lamp crew deck mast keel rudder storm island buoy pier cargo compass config buffer index cache request handler parser token module schema cursor socket timeout version release option value record field method result".split()
NAMES = "read_line open_file set_limit next_item to_string max_size is_empty with_room on_error from_parts split_at push_all".split()
CODE = '''fn main() -> io::Result<()> {|    let mut lines = Vec::new();|    for line in input.lines() {|        lines.push(line?);|    }|    println!("{} lines", lines.len());|    Ok(())|}|#include <stdio.h>|int main(int argc, char **argv) {|    if (argc < 2 && !quiet) { usage(argv[0]); return 1; }|    return run(argv[1]) > 0 ? 0 : 2;|import os, sys|def load(path, *, limit=10_000):|    with open(path, "rb") as file:|        return [row for row in file if len(row) < limit]|class Reader(Base):|    """Reads a file line by line."""|SELECT name, count(*) FROM boats WHERE left_at > '2024-01-01' GROUP BY name;|$ make install PREFIX=/usr/local && echo done|$ git log --oneline | head -n 5|{ "name": "harbour", "depth": 12.5, "open": true, "tags": ["a", "b"] }|<div class="note"><p>Keep &lt;this&gt; &amp; that.</p></div>|const wait = (ms) => new Promise((done) => setTimeout(done, ms));|    * not a list, and _not_ emphasis, [nor a link](/no)|# a comment, and no heading|case "$1" in -h\\|--help) usage ;; esac|let x = a & b \\| c;|    return left <= right \\|\\| left == 0;||'''.replace("\\|", "\x00").split("|")


class Maker:
    def __init__(self, seed):
        self.random = random.Random(seed)

    def marked(self, words):
        """The words of a sentence, one or a few of them marked as writers do."""
        chance = self.random
        for _ in range(chance.choice([0, 0, 1, 1, 2])):
            i = chance.randrange(len(words))
            word = words[i]
            if not word or any(c in "[]*_`<&" for c in word):
                continue
            noun, name = chance.choice(ENGLISH), chance.choice(NAMES)
            words[i] = chance.choices([
                "*%s*" % word, "**%s**" % word, "_%s_" % word, "`%s`" % name, "`%s()`" % name, "~~%s~~" % word,
                "[%s](/docs/%s/%d)" % (word, noun, chance.randrange(900)), "[%s](https://example.org/%s?a=1&b=%d \"%s\")" % (word, noun, chance.randrange(99), noun),
                "[%s][guide %d]" % (word, chance.randrange(400)), "[guide %d]" % chance.randrange(400), "[Guide %d][]" % chance.randrange(400),
                "![%s](/img/%s.png)" % (noun, noun), "<kbd>%s</kbd>" % noun, "<https://example.org/%s>" % noun, "&mdash; %s" % word, "%s&nbsp;&copy;" % word, "\\*%s\\*" % word, "**%s *%s***" % (noun, word), "``a `%s` b``" % name, "snake_case_%s" % noun, "2 * 3 < %d" % chance.randrange(9), "%s  \\" % word,
            ], [10, 8, 5, 10, 5, 2, 9, 4, 5, 3, 3, 2, 2, 2, 3, 2, 1, 2, 1, 2, 2, 0])[0]
        return words

    def sentence(self, language):
        words = self.random.choice(SENTENCES[language].split("|")).split(" ")
        if language == "en" and self.random.random() < .5:
            words.insert(self.random.randrange(len(words)), self.random.choice(ENGLISH))
        return " ".join(self.marked(words))

    def title(self, language):
        words = self.random.choice(SENTENCES[language].split("|")).rstrip(".。").split(" ")
        count = self.random.randint(2, 4)
        begin = self.random.randrange(max(1, len(words) - count))
        return " ".join(words[begin:begin + count])[:60].strip(",;:„“ ")


def write(name, lines):
    with open(os.path.join(os.path.dirname(os.path.abspath(__file__)), name), "w", encoding="utf-8") as file:
        file.write("\n".join(lines) + "\n")


def main():
    maker = Maker(20261126)
    others = [it for it in SENTENCES if it != "en"]
    language = lambda: "en" if maker.random.random() < .5 else maker.random.choice(others)
    write("sentences.txt", [maker.sentence(language()) for _ in range(3000)])
    write("titles.txt", [maker.title(language()) for _ in range(600)])
    write("code.txt", [maker.random.choice(CODE).replace("\x00", "|") for _ in range(400)])


if __name__ == "__main__":
    main()
